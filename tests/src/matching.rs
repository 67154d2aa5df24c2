//! Evaluation of template fields, fitting and bindings
//! (document 01, "One pick"; table 5 of the calculus).

use crate::net::*;

/// An evaluated template field: an actual, or a formal with its variable.
#[derive(Clone, Copy, PartialEq, Eq, Debug)]
pub enum Pattern {
    Actual(Field),
    FormalReading(u8),
    FormalAddress(u8),
}

/// An evaluated template; patterns past the count mean nothing.
#[derive(Clone, Copy, PartialEq, Eq, Debug)]
pub struct Template {
    pub count: u8,
    pub patterns: [Pattern; FIELDS],
}

/// The field a variable's value makes; none when it is unset.
pub fn field_of(value: Value) -> Option<Field> {
    match value {
        Value::Unset => None,
        Value::Reading(reading) => Some(Field::Reading(reading)),
        Value::Address(address) => Some(Field::Address(address)),
    }
}

/// The value a variable has once it is set to a field.
pub fn value_of(field: Field) -> Value {
    match field {
        Field::Reading(reading) => Value::Reading(reading),
        Field::Address(address) => Value::Address(address),
    }
}

/// One template field evaluated for a process at `host`; none when a
/// needed variable is unset.
pub fn evaluate_field(
    field: TemplateField,
    host: Locality,
    variables: &[Value; VARIABLES],
) -> Option<Pattern> {
    match field {
        TemplateField::Reading(reading) => Some(Pattern::Actual(Field::Reading(reading))),
        TemplateField::Address(address) => Some(Pattern::Actual(Field::Address(address))),
        TemplateField::Own => Some(Pattern::Actual(Field::Address(host))),
        TemplateField::Variable(variable) => {
            field_of(variables[variable as usize]).map(Pattern::Actual)
        }
        TemplateField::FormalReading(variable) => Some(Pattern::FormalReading(variable)),
        TemplateField::FormalAddress(variable) => Some(Pattern::FormalAddress(variable)),
    }
}

/// The template of an instruction evaluated for a process at `host`;
/// none when a needed variable is unset.
pub fn evaluate(
    instruction: &Instruction,
    host: Locality,
    variables: &[Value; VARIABLES],
) -> Option<Template> {
    let mut template = Template {
        count: instruction.count,
        patterns: [Pattern::Actual(Field::Reading(0)); FIELDS],
    };
    for index in 0..instruction.count as usize {
        template.patterns[index] = evaluate_field(instruction.fields[index], host, variables)?;
    }
    Some(template)
}

/// The tuple an out at `host` puts: its field values, and `host` as its
/// mark. None when a needed variable is unset; a formal has no value either,
/// though no sound out has one.
pub fn evaluate_tuple(
    instruction: &Instruction,
    host: Locality,
    variables: &[Value; VARIABLES],
) -> Option<Tuple> {
    let mut tuple = Tuple::ZERO.marked(host);
    tuple.count = instruction.count;
    for index in 0..instruction.count as usize {
        match evaluate_field(instruction.fields[index], host, variables)? {
            Pattern::Actual(field) => tuple.fields[index] = field,
            _ => return None,
        }
    }
    Some(tuple)
}

/// An actual fits its equal in sort and value, a formal its own sort.
pub fn field_fits(pattern: Pattern, field: Field) -> bool {
    match (pattern, field) {
        (Pattern::Actual(actual), field) => actual == field,
        (Pattern::FormalReading(_), Field::Reading(_)) => true,
        (Pattern::FormalAddress(_), Field::Address(_)) => true,
        _ => false,
    }
}

/// Equal field counts, and each field fits, whatever the tuple's mark.
pub fn fits(template: &Template, tuple: &Tuple) -> bool {
    let count = template.count as usize;
    template.count == tuple.count
        && (0..count).all(|index| field_fits(template.patterns[index], tuple.fields[index]))
}

/// The index of the oldest tuple of a node that fits.
pub fn oldest_fitting(template: &Template, node: &Node) -> Option<usize> {
    let held = &node.tuples[..node.tuple_count as usize];
    held.iter().position(|tuple| fits(template, tuple))
}

/// Sets the formals of a template from a tuple that fits it.
pub fn bind(template: &Template, tuple: &Tuple, variables: &mut [Value; VARIABLES]) {
    for index in 0..template.count as usize {
        match template.patterns[index] {
            Pattern::Actual(_) => {}
            Pattern::FormalReading(variable) | Pattern::FormalAddress(variable) => {
                variables[variable as usize] = value_of(tuple.fields[index]);
            }
        }
    }
}

#[cfg(test)]
mod tests {
    use super::*;
    use crate::by_hand::{address, reading};

    const HOST: Locality = Locality(3);

    fn template(fields: &[TemplateField], variables: &[Value; VARIABLES]) -> Option<Template> {
        let next = Place(0);
        let target = Target::Own;
        let action = Action::In { target, next };
        evaluate(&Instruction::with(action, fields), HOST, variables)
    }

    #[test]
    fn each_kind_is_evaluated() {
        let mut variables = Process::FREE.variables;
        variables[2] = Value::Reading(9);
        variables[3] = Value::Address(Locality(1));
        let each = |field| evaluate_field(field, HOST, &variables);
        let actual = |field| Some(Pattern::Actual(field));
        assert_eq!(each(TemplateField::Reading(-4)), actual(reading(-4)));
        assert_eq!(
            each(TemplateField::Address(Locality(2))),
            actual(address(2))
        );
        assert_eq!(each(TemplateField::Own), actual(address(3)));
        assert_eq!(each(TemplateField::Variable(2)), actual(reading(9)));
        assert_eq!(each(TemplateField::Variable(3)), actual(address(1)));
        assert_eq!(each(TemplateField::Variable(0)), None);
        assert_eq!(
            each(TemplateField::FormalReading(0)),
            Some(Pattern::FormalReading(0))
        );
        assert_eq!(
            each(TemplateField::FormalAddress(0)),
            Some(Pattern::FormalAddress(0))
        );
    }

    #[test]
    fn an_actual_is_equal_in_sort_and_value() {
        let actual = Pattern::Actual(reading(1));
        assert!(field_fits(actual, reading(1)));
        assert!(!field_fits(actual, reading(2)));
        assert!(!field_fits(actual, address(1)));
        assert!(!field_fits(Pattern::Actual(address(1)), reading(1)));
    }

    #[test]
    fn a_formal_fits_its_own_sort_only() {
        assert!(field_fits(Pattern::FormalReading(0), reading(7)));
        assert!(!field_fits(Pattern::FormalReading(0), address(7)));
        assert!(field_fits(Pattern::FormalAddress(0), address(7)));
        assert!(!field_fits(Pattern::FormalAddress(0), reading(7)));
    }

    #[test]
    fn counts_must_be_equal() {
        let variables = Process::FREE.variables;
        let one = template(&[TemplateField::FormalReading(0)], &variables).unwrap();
        assert!(fits(&one, &Tuple::of(&[reading(0)])));
        assert!(!fits(&one, &Tuple::of(&[reading(0), reading(0)])));
        assert!(!fits(&one, &Tuple::ZERO));
    }

    #[test]
    fn a_mark_takes_no_part() {
        let variables = Process::FREE.variables;
        let one = template(&[TemplateField::Reading(5)], &variables).unwrap();
        let (five, six) = (Tuple::of(&[reading(5)]), Tuple::of(&[reading(6)]));
        for mark in (0..16).map(Locality) {
            assert!(fits(&one, &five.marked(mark)));
            assert!(!fits(&one, &six.marked(mark)));
        }
        let mut node = Node::ZERO;
        node.tuples[0] = six.marked(HOST);
        node.tuples[1] = five.marked(Locality(15));
        node.tuples[2] = five.marked(HOST);
        node.tuple_count = 3;
        assert_eq!(oldest_fitting(&one, &node), Some(1));
    }

    #[test]
    fn the_tuple_of_an_out_has_its_host_s_mark() {
        let action = Action::Out {
            target: Target::Written(Locality(1)),
            next: Place(0),
        };
        let fields = [TemplateField::Reading(5), TemplateField::Own];
        let out = Instruction::with(action, &fields);
        let tuple = evaluate_tuple(&out, HOST, &Process::FREE.variables);
        let expected = Tuple::of(&[reading(5), address(3)]).marked(HOST);
        assert_eq!(tuple, Some(expected));
    }

    #[test]
    fn the_oldest_that_fits_is_found() {
        let variables = Process::FREE.variables;
        let mut node = Node::ZERO;
        node.tuples[0] = Tuple::of(&[address(0)]);
        node.tuples[1] = Tuple::of(&[reading(5)]);
        node.tuples[2] = Tuple::of(&[reading(6)]);
        node.tuple_count = 3;
        let any = template(&[TemplateField::FormalReading(0)], &variables).unwrap();
        assert_eq!(oldest_fitting(&any, &node), Some(1));
        let six = template(&[TemplateField::Reading(6)], &variables).unwrap();
        assert_eq!(oldest_fitting(&six, &node), Some(2));
        node.tuple_count = 1;
        assert_eq!(oldest_fitting(&any, &node), None);
    }

    #[test]
    fn an_actual_keeps_its_value_from_before() {
        let mut variables = Process::FREE.variables;
        variables[0] = Value::Reading(1);
        let fields = [TemplateField::FormalReading(0), TemplateField::Variable(0)];
        let pattern = template(&fields, &variables).unwrap();
        assert!(!fits(&pattern, &Tuple::of(&[reading(2), reading(2)])));
        let tuple = Tuple::of(&[reading(2), reading(1)]);
        assert!(fits(&pattern, &tuple));
        bind(&pattern, &tuple, &mut variables);
        assert_eq!(variables[0], Value::Reading(2));
    }

    #[test]
    fn an_unset_actual_gives_no_template() {
        let variables = Process::FREE.variables;
        let fields = [TemplateField::FormalReading(0), TemplateField::Variable(0)];
        assert_eq!(template(&fields, &variables), None);
    }
}
