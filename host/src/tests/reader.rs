// The reader's faults and their places, rule by rule, at outer and inner places.

use crate::commands::*;
use crate::inputs::one_of_each;
use crate::reader::Fault::*;
use crate::reader::*;
use crate::records::*;

fn stop(input: &[u8]) -> Option<(Fault, usize)> {
    read_all(input).1.map(|s| (s.fault, s.place))
}

fn after_open(rest: &[u8]) -> Vec<u8> {
    [&Command::Open { owner: 7 }.bytes(), rest].concat()
}

// An open takes 14 bytes, so the next command's tag is at 14 and its first field's at 17.
fn second(rest: &[u8]) -> Option<(Fault, usize)> {
    stop(&after_open(rest))
}

fn status() -> Vec<u8> {
    Command::Status { request: 0 }.bytes()
}

#[test]
fn what_is_written_is_read() {
    let commands = one_of_each();
    assert_eq!(read_all(&file_of(&commands)), (commands, None));
}

#[test]
fn first_command_must_be_there_and_be_an_open() {
    assert_eq!(stop(&[]), Some((MissingField, 0)));
    assert_eq!(stop(&status()), Some((FieldOrder, 0)));
    assert_eq!(stop(&field(0x11, &[0; 8])), Some((FieldOrder, 0)));
    assert_eq!(stop(&[8, 0]), Some((CutField, 0)));
    assert_eq!(stop(&[9, 0, 0]), Some((UnknownField, 0)));
}

#[test]
fn no_later_command_is_an_open() {
    let open = Command::Open { owner: 7 }.bytes();
    assert_eq!(second(&open), Some((FieldOrder, 14)));
    assert_eq!(second(&[8, 0, 0]), Some((FieldOrder, 14)));
}

#[test]
fn the_end_after_a_first_command_is_no_fault() {
    assert_eq!(second(&[]), None);
    assert_eq!(second(&status()), None);
}

#[test]
fn rules_at_an_outer_place() {
    assert_eq!(second(&[6]), Some((CutField, 14)));
    assert_eq!(second(&[6, 0]), Some((CutField, 14)));
    assert_eq!(second(&[0xFF, 0]), Some((CutField, 14)));
    assert_eq!(second(&[0xFF, 0, 0]), Some((UnknownField, 14)));
    assert_eq!(second(&[0x14, 0xFF, 0xFF]), Some((UnknownField, 14)));
    assert_eq!(second(&[0x10, 0xFF, 0xFF]), Some((FieldOrder, 14)));
    assert_eq!(second(&[6, 0, 1]), Some((CutField, 14)));
    assert_eq!(second(&[6, 0xFF, 0xFF, 0x09, 0, 0]), Some((CutField, 14)));
}

#[test]
fn rules_at_an_inner_place() {
    let inner = |value: &[u8]| second(&field(6, value));
    assert_eq!(inner(&[]), Some((MissingField, 17)));
    assert_eq!(inner(&[0x17]), Some((CutField, 17)));
    assert_eq!(inner(&[0x14, 0]), Some((CutField, 17)));
    assert_eq!(inner(&[0x14, 0, 0]), Some((UnknownField, 17)));
    assert_eq!(inner(&[0x16, 0xFF, 0]), Some((FieldOrder, 17)));
    assert_eq!(inner(&[0x06, 0, 0]), Some((FieldOrder, 17)));
    assert_eq!(inner(&[0x17, 0, 1]), Some((CutField, 17)));
    assert_eq!(inner(&field(0x17, &[0; 7])), Some((FieldLength, 17)));
    assert_eq!(inner(&field(0x17, &[0; 9])), Some((FieldLength, 17)));
    assert_eq!(inner(&field(0x17, &[])), Some((FieldLength, 17)));
}

#[test]
fn an_inner_end_is_the_end_of_the_enclosing_value() {
    let request = Command::Request {
        caller: Caller {
            predecessor: 1,
            signer: 1,
            signer_key: [0; 32],
        },
        text: vec![],
        now: BlockTime {
            height: 0,
            timestamp_ns: 0,
        },
    };
    let fields = request.fields();
    let mut end = 17;
    for i in 0..fields.len() {
        let cut = field(3, &fields[..i].concat());
        let input = [cut, status()].concat();
        assert_eq!(second(&input), Some((MissingField, end)));
        end += fields[i].len();
    }
}

#[test]
fn bytes_after_the_last_field_have_three_rules() {
    let number = field(0x17, &[0; 8]);
    let inner = |rest: &[u8]| second(&field(6, &[&number, rest].concat()));
    assert_eq!(inner(&[0x17, 0]), Some((CutField, 28)));
    assert_eq!(inner(&[0x00, 0, 0]), Some((UnknownField, 28)));
    assert_eq!(inner(&[0x17, 0xFF, 0xFF]), Some((FieldOrder, 28)));
    assert_eq!(inner(&number), Some((FieldOrder, 28)));
}

#[test]
fn a_limit_is_due_if_any_byte_is_left() {
    let from = field(0x19, &[0; 8]);
    let limit = field(0x1A, &[0; 8]);
    let page = |rest: &[u8]| after_open(&field(7, &[&from, rest].concat()));
    let read = |input: &[u8]| read_all(input).0.pop();
    let none = Command::Page {
        from: 0,
        limit: None,
    };
    assert_eq!(read(&page(&[])), Some(none));
    let some = Command::Page {
        from: 0,
        limit: Some(0),
    };
    assert_eq!(read(&page(&limit)), Some(some));
    assert_eq!(stop(&page(&from)), Some((FieldOrder, 28)));
    assert_eq!(stop(&page(&[0x1A, 0])), Some((CutField, 28)));
    assert_eq!(stop(&page(&field(0x1A, &[0; 7]))), Some((FieldLength, 28)));
    let twice = [&limit[..], &limit].concat();
    assert_eq!(stop(&page(&twice)), Some((FieldOrder, 39)));
}

#[test]
fn a_role_above_one_is_bad_and_told_by_its_tag() {
    let mut add = one_of_each()[1].bytes();
    let role = add.len() - 1;
    for value in 0..=255 {
        add[role] = value;
        let expected = (value > 1).then_some((BadRole, 14 + role - 3));
        assert_eq!(second(&add), expected);
    }
    let two_bytes = field(0x15, &[2, 2]);
    let fields = one_of_each()[1].fields();
    let wrong = [fields[..3].concat(), two_bytes].concat();
    assert_eq!(
        second(&field(1, &wrong)),
        Some((FieldLength, 14 + role - 3))
    );
}

#[test]
fn known_tags_are_the_kinds_and_the_listed_fields() {
    let known = |tag: u8| second(&[tag, 0, 0]).map(|(fault, _)| fault) != Some(UnknownField);
    let tags: Vec<u8> = (0..=255).filter(|t| known(*t)).collect();
    let mut expected: Vec<u8> = (0x01..=0x08).collect();
    expected.extend([0x10, 0x11, 0x12, 0x13, 0x15, 0x16, 0x17, 0x18, 0x19, 0x1A]);
    assert_eq!(tags, expected);
}

#[test]
fn numbers_have_their_high_byte_first() {
    let input = field(8, &field(0x11, &[1, 2, 3, 4, 5, 6, 7, 8]));
    let owner = 0x0102_0304_0506_0708;
    assert_eq!(read_all(&input).0, [Command::Open { owner }]);
}

#[test]
fn an_input_may_have_65536_bytes_and_no_more() {
    let mut inputs = crate::inputs::at_the_limit().into_iter();
    for length in [65535, 65536] {
        let input = inputs.next().unwrap();
        assert_eq!((input.len(), stop(&input)), (length, None));
    }
    let longer = inputs.next().unwrap();
    assert_eq!(read_all(&longer).0, []);
    assert_eq!(stop(&longer), Some((InputTooLong, 0)));
}

#[test]
fn what_came_before_a_fault_is_kept() {
    let input = after_open(&[status(), vec![9, 0, 0]].concat());
    let (commands, stop) = read_all(&input);
    assert_eq!(commands.len(), 2);
    assert_eq!(stop.map(|s| s.place), Some(28));
}
