//! The records of a net (document 01, "The net"; document 02, slip 8: the
//! mark of a tuple; slip 10: the format, the origin of a process and a row
//! for each origin; slip 11: the set of an out to many stores).

mod shown;

/// Most addresses in a net.
pub const ADDRESSES: usize = 16;
/// Process slots at each address.
pub const SLOTS: usize = 4;
/// Most tuples at each address.
pub const TUPLES: usize = 16;
/// Most fields in a tuple or template.
pub const FIELDS: usize = 4;
/// Most instructions in the code.
pub const INSTRUCTIONS: usize = 512;
/// Variables of each process.
pub const VARIABLES: usize = 8;

/// The format of a net whose nodes have one row each.
pub const SINGLE_ROW: u8 = 1;
/// The format of a net whose nodes have a row for each origin.
pub const ROW_BY_ORIGIN: u8 = 2;
/// Both formats.
pub const FORMATS: [u8; 2] = [SINGLE_ROW, ROW_BY_ORIGIN];

/// A network address, numbered from 0.
#[derive(Clone, Copy, PartialEq, Eq, Debug)]
pub struct Locality(pub u8);

/// A place in the code, numbered from 0.
#[derive(Clone, Copy, PartialEq, Eq, Debug)]
pub struct Place(pub u16);

/// What a variable of a process holds.
#[derive(Clone, Copy, PartialEq, Eq, Debug)]
pub enum Value {
    Unset,
    Reading(i32),
    Address(Locality),
}

/// One field of a tuple: a reading or an address, never unset.
#[derive(Clone, Copy, PartialEq, Eq, Debug)]
pub enum Field {
    Reading(i32),
    Address(Locality),
}

/// A tuple: the first `count` fields are its own, the others are zero. Its
/// mark takes no part in fitting, but equal tuples have equal marks.
#[derive(Clone, Copy, PartialEq, Eq, Debug)]
pub struct Tuple {
    pub count: u8,
    pub fields: [Field; FIELDS],
    /// The mark: the address of the node where its out was performed, and
    /// for a tuple of an image or a text that of its own node.
    pub from: Locality,
}

/// The rights of a row over one address: i, r, o, e. What a row holds is kept
/// as it is written; i grants reading whether or not r is held beside it.
#[derive(Clone, Copy, Eq)]
pub struct Rights {
    pub take: bool,
    pub read: bool,
    pub put: bool,
    pub send: bool,
}

/// All four at once, which is quicker than one after another: a net has 4,096
/// of these records.
impl PartialEq for Rights {
    fn eq(&self, other: &Rights) -> bool {
        let (take, read) = (self.take == other.take, self.read == other.read);
        let (put, send) = (self.put == other.put, self.send == other.send);
        take & read & put & send
    }
}

/// A policy row: the right n and the rights over each address.
#[derive(Clone, Copy, PartialEq, Eq)]
pub struct Row {
    pub create: bool,
    pub rights: [Rights; ADDRESSES],
}

/// A process slot, free or busy.
#[derive(Clone, Copy, PartialEq, Eq, Debug)]
pub struct Process {
    pub busy: bool,
    pub at: Place,
    /// The origin: for a starting process its own node, for sent code the
    /// node that sent it; a fork keeps it. A free slot has 0.
    pub origin: Locality,
    pub variables: [Value; VARIABLES],
}

/// What stands at one address. Tuples stand oldest first.
#[derive(Clone, PartialEq, Eq)]
pub struct Node {
    /// The rows, one for the code of each origin. In format 1 all are equal,
    /// in format 2 those for unused origins are zero.
    pub rows: [Row; ADDRESSES],
    pub processes: [Process; SLOTS],
    pub tuple_count: u8,
    pub tuples: [Tuple; TUPLES],
}

/// Where an action is aimed.
#[derive(Clone, Copy, PartialEq, Eq, Debug)]
pub enum Target {
    Written(Locality),
    /// `self`, the address hosting the process.
    Own,
    Variable(u8),
}

/// One field of a template, in the order of the image's kinds 0 to 5.
#[derive(Clone, Copy, PartialEq, Eq, Debug)]
pub enum TemplateField {
    Reading(i32),
    Address(Locality),
    /// `self`, the address hosting the process.
    Own,
    Variable(u8),
    FormalReading(u8),
    FormalAddress(u8),
}

/// The members of an out to a set as the 16 bits of an image, the first of
/// which, the most significant, is for address 0.
#[derive(Clone, Copy, PartialEq, Eq)]
pub struct Set(pub u16);

/// What an instruction does, in the order of the image's actions 0 to 7.
#[derive(Clone, Copy, PartialEq, Eq, Debug)]
pub enum Action {
    Stop,
    Out {
        target: Target,
        next: Place,
    },
    In {
        target: Target,
        next: Place,
    },
    Read {
        target: Target,
        next: Place,
    },
    Eval {
        target: Target,
        sent: Place,
        next: Place,
    },
    New {
        variable: u8,
        next: Place,
    },
    Fork {
        first: Place,
        second: Place,
    },
    /// An out to each member of a set, in format 2 alone.
    OutToSet {
        members: Set,
        next: Place,
    },
}

/// An action with its template. Only out, in, read and an out to a set have
/// fields;
/// fields past the count are `Reading(0)`.
#[derive(Clone, Copy, PartialEq, Eq, Debug)]
pub struct Instruction {
    pub action: Action,
    pub count: u8,
    pub fields: [TemplateField; FIELDS],
}

/// The whole net. Nodes past `address_count` and instructions past
/// `code_length` are zero records.
#[derive(Clone, PartialEq, Eq)]
pub struct Net {
    /// The format of its image, 1 or 2; the empty net has 0.
    pub format: u8,
    pub address_count: u8,
    pub code_length: u16,
    pub nodes: Box<[Node; ADDRESSES]>,
    pub code: Box<[Instruction; INSTRUCTIONS]>,
}

impl Tuple {
    pub const ZERO: Tuple = Tuple {
        count: 0,
        fields: [Field::Reading(0); FIELDS],
        from: Locality(0),
    };

    /// The tuple of these fields, at most four of them, from address 0.
    pub fn of(fields: &[Field]) -> Tuple {
        let mut tuple = Tuple::ZERO;
        tuple.count = fields.len() as u8;
        tuple.fields[..fields.len()].copy_from_slice(fields);
        tuple
    }

    /// The tuple of the same fields from this address.
    pub fn marked(self, from: Locality) -> Tuple {
        Tuple { from, ..self }
    }
}

impl Rights {
    pub const NONE: Rights = Rights {
        take: false,
        read: false,
        put: false,
        send: false,
    };
    pub const ALL: Rights = Rights {
        take: true,
        read: true,
        put: true,
        send: true,
    };

    /// Whether a read is granted: by r, or by i, which includes it.
    pub fn grants_read(self) -> bool {
        self.read || self.take
    }
}

impl Row {
    pub const ZERO: Row = Row {
        create: false,
        rights: [Rights::NONE; ADDRESSES],
    };
    pub const ALL: Row = Row {
        create: true,
        rights: [Rights::ALL; ADDRESSES],
    };

    /// The rights over an address; none over a number that is no address.
    pub fn over(&self, address: Locality) -> Rights {
        match self.rights.get(address.0 as usize) {
            Some(rights) => *rights,
            None => Rights::NONE,
        }
    }
}

impl Process {
    pub const FREE: Process = Process {
        busy: false,
        at: Place(0),
        origin: Locality(0),
        variables: [Value::Unset; VARIABLES],
    };

    /// A process at its first place, all variables unset, that starts at
    /// this node and so has it as origin.
    pub fn starting(at: Place, node: Locality) -> Process {
        Process {
            busy: true,
            at,
            origin: node,
            ..Process::FREE
        }
    }
}

impl Node {
    pub const ZERO: Node = Node {
        rows: [Row::ZERO; ADDRESSES],
        processes: [Process::FREE; SLOTS],
        tuple_count: 0,
        tuples: [Tuple::ZERO; TUPLES],
    };

    /// The row for code of this origin, an address.
    pub fn row_for(&self, origin: Locality) -> &Row {
        &self.rows[origin.0 as usize]
    }

    /// Whether there is no room for a further tuple.
    pub fn full(&self) -> bool {
        self.tuple_count as usize == TUPLES
    }

    /// The lowest free slot, if any.
    pub fn free_slot(&self) -> Option<usize> {
        self.processes.iter().position(|process| !process.busy)
    }

    /// The number of busy slots.
    pub fn busy_slots(&self) -> usize {
        self.processes.iter().filter(|process| process.busy).count()
    }
}

impl Set {
    pub const EMPTY: Set = Set(0);

    /// The set of these addresses.
    pub fn of(members: impl IntoIterator<Item = Locality>) -> Set {
        let bits = members.into_iter().map(|member| Set::bit(member.0));
        Set(bits.fold(0, |set, bit| set | bit))
    }

    /// The members, ascending.
    pub fn members(self) -> impl Iterator<Item = Locality> {
        let addresses = (0..ADDRESSES as u8).map(Locality);
        addresses.filter(move |address| self.0 & Set::bit(address.0) != 0)
    }

    fn bit(address: u8) -> u16 {
        0x8000 >> address
    }
}

impl Instruction {
    pub const STOP: Instruction = Instruction {
        action: Action::Stop,
        count: 0,
        fields: [TemplateField::Reading(0); FIELDS],
    };

    /// An instruction without a template.
    pub fn plain(action: Action) -> Instruction {
        Instruction {
            action,
            ..Instruction::STOP
        }
    }

    /// An instruction with these template fields, at most four of them.
    pub fn with(action: Action, fields: &[TemplateField]) -> Instruction {
        let mut instruction = Instruction::plain(action);
        instruction.count = fields.len() as u8;
        instruction.fields[..fields.len()].copy_from_slice(fields);
        instruction
    }
}

impl Net {
    /// The empty net: address count 0, every record zero or unset.
    pub fn empty() -> Net {
        Net {
            format: 0,
            address_count: 0,
            code_length: 0,
            nodes: boxed(Node::ZERO),
            code: boxed(Instruction::STOP),
        }
    }

    /// The empty net but for its format and counts.
    pub fn of(format: u8, address_count: u8, code_length: u16) -> Net {
        Net {
            format,
            address_count,
            code_length,
            ..Net::empty()
        }
    }

    /// How many rows of a node may hold rights: in format 2 those for the
    /// origins in use, otherwise all.
    pub fn row_count(&self) -> usize {
        match self.format {
            ROW_BY_ORIGIN => (self.address_count as usize).min(ADDRESSES),
            _ => ADDRESSES,
        }
    }

    /// Changes all rows of a node that may hold rights, alike.
    pub fn each_row(&mut self, at: usize, change: impl Fn(&mut Row)) {
        let count = self.row_count();
        self.nodes[at].rows[..count].iter_mut().for_each(change);
    }
}

/// An array of equal records, made on the heap.
fn boxed<T: Clone, const N: usize>(record: T) -> Box<[T; N]> {
    match vec![record; N].into_boxed_slice().try_into() {
        Ok(array) => array,
        Err(_) => unreachable!("the vector has N records"),
    }
}

#[cfg(test)]
mod tests {
    use super::*;

    #[test]
    fn the_empty_net_is_all_zero() {
        let net = Net::empty();
        assert_eq!((net.format, net.address_count, net.code_length), (0, 0, 0));
        assert!(net.nodes.iter().all(|node| *node == Node::ZERO));
        assert!(net.code.iter().all(|code| *code == Instruction::STOP));
    }

    /// In format 1 all rows of a node change alike, in format 2 those for
    /// origins in use.
    #[test]
    fn rows_are_changed_alike() {
        for (format, addresses, changed) in [(1, 3, 16), (2, 3, 3), (2, 16, 16), (2, 1, 1)] {
            let mut net = Net::of(format, addresses, 1);
            net.each_row(2, |row| row.create = true);
            let rows = &net.nodes[2].rows;
            assert!((0..ADDRESSES).all(|origin| rows[origin].create == (origin < changed)));
            assert!(net.nodes[1] == Node::ZERO && net.nodes[3] == Node::ZERO);
            assert_eq!(net.nodes[2].row_for(Locality(0)).rights, Row::ZERO.rights);
        }
    }

    #[test]
    fn the_lowest_free_slot_is_found() {
        let mut node = Node::ZERO;
        assert_eq!(node.free_slot(), Some(0));
        node.processes[0].busy = true;
        node.processes[2].busy = true;
        assert_eq!(node.free_slot(), Some(1));
        assert_eq!(node.busy_slots(), 2);
        node.processes = [Process::starting(Place(0), Locality(0)); SLOTS];
        assert_eq!(node.free_slot(), None);
    }

    /// The first of the 16 bits is for address 0.
    #[test]
    fn a_set_has_a_bit_for_each_address() {
        assert_eq!(Set::of([]), Set::EMPTY);
        assert_eq!(Set::of([0, 2].map(Locality)), Set(0b1010_0000_0000_0000));
        assert_eq!(Set::of([15].map(Locality)), Set(1));
        assert_eq!(Set::of((0..16).map(Locality)), Set(0xFFFF));
        for number in (0..=u16::MAX).step_by(97) {
            let members: Vec<Locality> = Set(number).members().collect();
            assert_eq!(members.len(), number.count_ones() as usize);
            assert!(members.is_sorted_by(|one, other| one.0 < other.0));
            assert_eq!(Set::of(members), Set(number));
        }
    }

    #[test]
    fn a_mark_tells_tuples_apart() {
        let tuple = Tuple::of(&[Field::Reading(5)]);
        assert_eq!(tuple.marked(Locality(0)), tuple);
        assert_ne!(tuple.marked(Locality(1)), tuple);
        assert_eq!(tuple.marked(Locality(1)).fields, tuple.fields);
    }

    /// By i or by r, and not by o and e.
    #[test]
    fn reading_is_granted_by_two_rights() {
        for number in 0..16 {
            let [take, read, put, send] = [8, 4, 2, 1].map(|right| number & right != 0);
            let rights = Rights {
                take,
                read,
                put,
                send,
            };
            assert_eq!(rights.grants_read(), number >= 4);
        }
    }

    #[test]
    fn rights_over_no_address_are_none() {
        let mut row = Row::ZERO;
        row.rights[15] = Rights::ALL;
        assert_eq!(row.over(Locality(15)), Rights::ALL);
        assert_eq!(row.over(Locality(16)), Rights::NONE);
    }
}
