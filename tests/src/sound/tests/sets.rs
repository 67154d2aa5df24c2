//! Outs to a set: where they may stand, what they reach and need.

use super::*;
use crate::by_hand::{fork, in_format_2, net, out_to_set, stops};

const OWN_FIELD: [TemplateField; 1] = [TemplateField::Own];

/// One instruction at so many addresses, in format 2.
fn with(count: u8, instruction: Instruction) -> Net {
    let mut net = in_format_2(stops(count, 1));
    net.code[0] = instruction;
    net
}

#[test]
fn in_format_1_there_are_none() {
    for members in [&[][..], &[0], &[0, 1]] {
        let mut net = with(2, out_to_set(members, &OWN_FIELD, 0));
        assert!(sound(&net));
        net.format = SINGLE_ROW;
        assert!(!sound(&net));
        // Past the code length it is no zero record either.
        let mut past = in_format_2(stops(2, 1));
        past.code[1] = out_to_set(members, &OWN_FIELD, 0);
        assert!(!sound(&past));
    }
}

#[test]
fn members_lie_below_the_count() {
    for count in 1..=16 {
        for member in 0..16 {
            let one = with(count, out_to_set(&[member], &OWN_FIELD, 0));
            assert_eq!(sound(&one), member < count);
            let two = with(count, out_to_set(&[0, member], &OWN_FIELD, 0));
            assert_eq!(sound(&two), member < count);
        }
        let all: Vec<u8> = (0..count).collect();
        assert!(sound(&with(count, out_to_set(&all, &OWN_FIELD, 0))));
    }
}

/// Rule 26, the field count, numbers in range and zero fields past the count.
#[test]
fn its_template_is_that_of_an_out() {
    let out = |fields: &[TemplateField]| with(2, out_to_set(&[0, 1], fields, 0));
    assert!(sound(&out(&[TemplateField::Variable(7); 4])));
    assert!(!sound(&out(&[])));
    assert!(!sound(&out(&[TemplateField::Variable(8)])));
    assert!(!sound(&out(&[TemplateField::Address(Locality(2))])));
    assert!(!sound(&out(&[TemplateField::FormalReading(0)])));
    assert!(!sound(&out(&[
        TemplateField::Own,
        TemplateField::FormalAddress(0)
    ])));
    let mut past = out(&OWN_FIELD);
    past.code[0].fields[1] = TemplateField::Reading(1);
    assert!(!sound(&past));
    assert!(!sound(&with(2, out_to_set(&[0], &OWN_FIELD, 1))));
}

/// Its next place is reached, and o is needed at each member, as at a written
/// address: what stands for `self` is of no matter.
#[test]
fn each_member_needs_o() {
    let code = [
        fork(1, 1),
        out_to_set(&[0, 3], &OWN_FIELD, 2),
        Instruction::STOP,
    ];
    assert_eq!(places(&code, 0), [0, 1, 2]);
    let mut row = Row::ZERO;
    assert!(!keeps(&code, &row));
    row.rights[0] = PUT;
    assert!(!keeps(&code, &row));
    row.rights[3] = Rights {
        put: false,
        ..Rights::ALL
    };
    assert!(!keeps(&code, &row));
    row.rights[3] = PUT;
    assert!(keeps(&code, &row));
    row.rights[0] = SEND;
    assert!(!keeps(&code, &row));
    assert!(keeps(&[out_to_set(&[], &OWN_FIELD, 0)], &Row::ZERO));
    let mut all = Row::ALL;
    let code = [out_to_set(&(0..16).collect::<Vec<_>>(), &OWN_FIELD, 0)];
    assert!(keeps(&code, &all));
    all.rights[15].put = false;
    assert!(!keeps(&code, &all));
    assert!(!sound(&net(2, &code)));
}
