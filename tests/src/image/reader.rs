//! Reading an image field by field (document 01, "The image" and "Numbers for
//! an image"; document 02, slips 2, 10 and 11). Each field knows the bit at
//! which it begins, and a fault carries that of the field at fault.

use super::*;
use crate::bits::BitReader;

/// A starting process, and the bit at which its entry begins.
pub struct Start {
    pub address: Locality,
    pub place: Place,
    pub bit: usize,
}

/// The net of an image without the faults 21 to 29, and its starting
/// processes in the order of the image.
pub fn read(bytes: &[u8]) -> Result<(Net, Vec<Start>), Fault> {
    let mut reader = ImageReader {
        bits: BitReader::new(bytes),
        net: Net::empty(),
        starts: Vec::new(),
    };
    reader.counts()?;
    reader.rows()?;
    reader.processes()?;
    reader.tuples()?;
    reader.code()?;
    reader.end()?;
    Ok((reader.net, reader.starts))
}

/// A field of the image: its number, and the bit at which it begins.
#[derive(Clone, Copy)]
struct Taken {
    number: u32,
    bit: usize,
}

impl Taken {
    fn fault(self, number: u8) -> Fault {
        let bit = self.bit;
        Fault { number, bit }
    }

    // The field's number where it is right; a fault at the field otherwise.
    fn judged(self, right: bool, number: u8) -> Result<u32, Fault> {
        if right {
            Ok(self.number)
        } else {
            Err(self.fault(number))
        }
    }
}

/// The bits still to read, the net written down so far, and the starting
/// processes met.
struct ImageReader<'a> {
    bits: BitReader<'a>,
    net: Net,
    starts: Vec<Start>,
}

impl ImageReader<'_> {
    // The single fields, each judged once its bits are read. One that ends
    // early is at fault from its first bit on.

    fn field(&mut self, width: usize) -> Result<Taken, Fault> {
        let bit = self.bits.next_bit();
        let ends = Fault {
            number: BITS_END,
            bit,
        };
        let number = self.bits.take(width).ok_or(ends)?;
        Ok(Taken { number, bit })
    }

    fn number(&mut self, width: usize) -> Result<u32, Fault> {
        Ok(self.field(width)?.number)
    }

    fn flag(&mut self) -> Result<bool, Fault> {
        Ok(self.number(1)? == 1)
    }

    fn count(&mut self, width: usize, least: u32, most: u32) -> Result<u32, Fault> {
        let count = self.field(width)?;
        let right = least <= count.number && count.number <= most;
        count.judged(right, COUNT_OUT_OF_RANGE)
    }

    fn address(&mut self) -> Result<Locality, Fault> {
        let address = self.field(4)?;
        let right = address.number < self.net.address_count.into();
        let number = address.judged(right, ADDRESS_OUT_OF_RANGE)?;
        Ok(Locality(number as u8))
    }

    fn place(&mut self) -> Result<Place, Fault> {
        let place = self.field(9)?;
        let right = place.number < self.net.code_length.into();
        let number = place.judged(right, PLACE_OUT_OF_RANGE)?;
        Ok(Place(number as u16))
    }

    fn variable(&mut self) -> Result<u8, Fault> {
        Ok(self.number(3)? as u8)
    }

    fn reading(&mut self) -> Result<i32, Fault> {
        Ok(self.number(32)? as i32)
    }

    // Part 1: format, address count, code length.
    fn counts(&mut self) -> Result<(), Fault> {
        let format = self.field(4)?;
        let known = FORMATS.map(u32::from).contains(&format.number);
        self.net.format = format.judged(known, WRONG_FORMAT)? as u8;
        self.net.address_count = self.count(5, 1, ADDRESSES as u32)? as u8;
        self.net.code_length = self.count(10, 1, INSTRUCTIONS as u32)? as u16;
        Ok(())
    }

    // Part 2: the rows of each node.
    fn rows(&mut self) -> Result<(), Fault> {
        for address in 0..self.net.address_count as usize {
            self.net.nodes[address].rows = self.rows_of_node()?;
        }
        Ok(())
    }

    // In format 1 a single row, for every origin; in format 2 one for each
    // origin in use, ascending.
    fn rows_of_node(&mut self) -> Result<[Row; ADDRESSES], Fault> {
        if self.net.format == SINGLE_ROW {
            return Ok([self.row()?; ADDRESSES]);
        }
        let mut rows = [Row::ZERO; ADDRESSES];
        for row in &mut rows[..self.net.address_count as usize] {
            *row = self.row()?;
        }
        Ok(rows)
    }

    fn row(&mut self) -> Result<Row, Fault> {
        let mut row = Row::ZERO;
        row.create = self.flag()?;
        for address in 0..self.net.address_count as usize {
            row.rights[address] = self.rights()?;
        }
        Ok(row)
    }

    // The four rights over an address are one field.
    fn rights(&mut self) -> Result<Rights, Fault> {
        let rights = self.number(4)?;
        Ok(Rights {
            take: rights & 8 != 0,
            read: rights & 4 != 0,
            put: rights & 2 != 0,
            send: rights & 1 != 0,
        })
    }

    // Part 3: the starting processes, in slots 0 upward, each with its own
    // node as origin.
    fn processes(&mut self) -> Result<(), Fault> {
        for address in 0..self.net.address_count {
            for slot in 0..self.count(3, 0, SLOTS as u32)? as usize {
                let start = self.start(Locality(address))?;
                let process = Process::starting(start.place, start.address);
                self.net.nodes[address as usize].processes[slot] = process;
                self.starts.push(start);
            }
        }
        Ok(())
    }

    fn start(&mut self, address: Locality) -> Result<Start, Fault> {
        let bit = self.bits.next_bit();
        let place = self.place()?;
        Ok(Start {
            address,
            place,
            bit,
        })
    }

    // Part 4: the tuples, each with the mark of its own node.
    fn tuples(&mut self) -> Result<(), Fault> {
        for address in 0..self.net.address_count as usize {
            let count = self.count(5, 0, TUPLES as u32)?;
            self.net.nodes[address].tuple_count = count as u8;
            for index in 0..count as usize {
                let tuple = self.tuple()?.marked(Locality(address as u8));
                self.net.nodes[address].tuples[index] = tuple;
            }
        }
        Ok(())
    }

    fn tuple(&mut self) -> Result<Tuple, Fault> {
        let mut tuple = Tuple::ZERO;
        tuple.count = self.field_count()?;
        for index in 0..tuple.count as usize {
            tuple.fields[index] = self.tuple_field()?;
        }
        Ok(tuple)
    }

    fn field_count(&mut self) -> Result<u8, Fault> {
        Ok(self.number(2)? as u8 + 1)
    }

    fn tuple_field(&mut self) -> Result<Field, Fault> {
        if self.flag()? {
            Ok(Field::Address(self.address()?))
        } else {
            Ok(Field::Reading(self.reading()?))
        }
    }

    // Part 5: the instructions.
    fn code(&mut self) -> Result<(), Fault> {
        for index in 0..self.net.code_length as usize {
            self.net.code[index] = self.instruction()?;
        }
        Ok(())
    }

    fn instruction(&mut self) -> Result<Instruction, Fault> {
        let opening = self.field(3)?;
        let action = match opening.number {
            0 => Action::Stop,
            1 => return self.with_template(true, |target, next| Action::Out { target, next }),
            2 => return self.with_template(false, |target, next| Action::In { target, next }),
            3 => return self.with_template(false, |target, next| Action::Read { target, next }),
            4 => self.eval()?,
            5 => self.new_address()?,
            6 => self.fork()?,
            7 if self.net.format == ROW_BY_ORIGIN => return self.out_to_set(),
            _ => return Err(opening.fault(UNKNOWN_KIND)),
        };
        Ok(Instruction::plain(action))
    }

    // Target, field count, fields, next place.
    fn with_template(
        &mut self,
        is_out: bool,
        action: fn(Target, Place) -> Action,
    ) -> Result<Instruction, Fault> {
        let target = self.target()?;
        let fields = self.template(is_out)?;
        let next = self.place()?;
        Ok(Instruction::with(action(target, next), &fields))
    }

    // Members, field count, fields, next place.
    fn out_to_set(&mut self) -> Result<Instruction, Fault> {
        let members = self.members()?;
        let fields = self.template(true)?;
        let next = self.place()?;
        let action = Action::OutToSet { members, next };
        Ok(Instruction::with(action, &fields))
    }

    // The 16 bits are one field, at fault for any member not below the count.
    fn members(&mut self) -> Result<Set, Fault> {
        let members = self.field(16)?;
        let set = Set(members.number as u16);
        let count = self.net.address_count;
        let right = set.members().all(|member| member.0 < count);
        members.judged(right, ADDRESS_OUT_OF_RANGE)?;
        Ok(set)
    }

    // Field count and fields.
    fn template(&mut self, is_out: bool) -> Result<Vec<TemplateField>, Fault> {
        let mut fields = Vec::new();
        for _ in 0..self.field_count()? {
            fields.push(self.template_field(is_out, &fields)?);
        }
        Ok(fields)
    }

    fn target(&mut self) -> Result<Target, Fault> {
        let kind = self.field(2)?;
        match kind.number {
            0 => Ok(Target::Written(self.address()?)),
            1 => Ok(Target::Own),
            2 => Ok(Target::Variable(self.variable()?)),
            _ => Err(kind.fault(UNKNOWN_KIND)),
        }
    }

    fn template_field(
        &mut self,
        is_out: bool,
        before: &[TemplateField],
    ) -> Result<TemplateField, Fault> {
        let kind = self.field(3)?;
        match kind.number {
            0 => Ok(TemplateField::Reading(self.reading()?)),
            1 => Ok(TemplateField::Address(self.address()?)),
            2 => Ok(TemplateField::Own),
            3 => Ok(TemplateField::Variable(self.variable()?)),
            4 | 5 if is_out => Err(kind.fault(FORMAL_IN_OUT)),
            4 => Ok(TemplateField::FormalReading(self.formal(before)?)),
            5 => Ok(TemplateField::FormalAddress(self.formal(before)?)),
            _ => Err(kind.fault(UNKNOWN_KIND)),
        }
    }

    // A formal variable, not formal in an earlier field of the template.
    fn formal(&mut self, before: &[TemplateField]) -> Result<u8, Fault> {
        let variable = self.field(3)?;
        let twice = before.iter().any(|field| match *field {
            TemplateField::FormalReading(other) => u32::from(other) == variable.number,
            TemplateField::FormalAddress(other) => u32::from(other) == variable.number,
            _ => false,
        });
        Ok(variable.judged(!twice, FORMAL_TWICE)? as u8)
    }

    fn eval(&mut self) -> Result<Action, Fault> {
        let target = self.target()?;
        let sent = self.place()?;
        let next = self.place()?;
        Ok(Action::Eval { target, sent, next })
    }

    fn new_address(&mut self) -> Result<Action, Fault> {
        let variable = self.variable()?;
        let next = self.place()?;
        Ok(Action::New { variable, next })
    }

    fn fork(&mut self) -> Result<Action, Fault> {
        let first = self.place()?;
        let second = self.place()?;
        Ok(Action::Fork { first, second })
    }

    // Part 6: what stands after the code, at fault from its first bit on.
    fn end(&mut self) -> Result<(), Fault> {
        let bit = self.bits.next_bit();
        if self.bits.only_padding_left() {
            Ok(())
        } else {
            let number = MORE_AFTER_CODE;
            Err(Fault { number, bit })
        }
    }
}
