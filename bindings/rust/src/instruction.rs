use crate::calls::operand_number;
use crate::names::index;
use crate::{AnyOpcode, ManualInstruction, Opcode, OperandSpec, Parts, Reading, RegisterList, Size, Width};

/// A record as the library has it.
pub(crate) type Numbers = [u32; index::NUMBERS];

/// A decoded instruction, or one to be encoded. `==` compares every field; several records can mean the same instruction.
///
/// The type of its opcode says by which reading: an `Instruction` is document 01's, a [`ManualInstruction`] the manual's. A record means
/// something else by the other reading, so no function takes the one for the other; [`Instruction::to_manual`] and
/// [`ManualInstruction::to_document01`](Instruction::to_document01) are there for who means it.
///
/// ```compile_fail,E0308
/// let instruction = m16c::decode(&[0x7D, 0xB9], 0).expect("an instruction");
/// m16c::encode_manual(&instruction, &mut [0; 2], 0); // not a `ManualInstruction`
/// ```
#[derive(Debug, Clone, Copy, PartialEq, Eq, Hash)]
pub struct Instruction<O = Opcode> {
    /// The opcode, with the size that it carries.
    pub opcode: O,
    /// By the first byte. It counts: opcodes that carry no size mean another instruction at another width.
    pub width: Width,
    pub operands: [OperandSpec; 3],
    pub imm_wide: u32,
    pub dispabs: u16,
    /// The displacement that was read before the one in `dispabs`, where two were.
    pub first: u16,
    pub length: u8,
    /// Whether decoding departs from the maker's manual here. Not where it accepts what the manual only forbids: A0 or A1 on both sides of
    /// a byte's `MOV`, `ADD` and so on, and a list of no registers.
    pub marked: bool,
    /// Whether a 20-bit number was read from three bytes of which the upper four bits, which are not kept, were not all zero. Its line
    /// then ends in ` !`; encoding writes zeros there.
    ///
    /// ```
    /// let bytes = [0x74, 0x00, 0x61, 0xFE, 0x16];
    /// let stored = m16c::decode(&bytes, 0).expect("an instruction");
    /// assert!(stored.dropped);
    /// assert_eq!(m16c::line(&bytes, 0).expect("a line").as_str(), "0000 5 B STE R0L Abs20=6FE61 !");
    ///
    /// let mut patch = [0; 5];
    /// assert_eq!(m16c::encode(&stored, &mut patch, 0), Ok(5));
    /// assert_eq!(patch, [0x74, 0x00, 0x61, 0xFE, 0x06]);
    /// ```
    pub dropped: bool,
    /// What [`Instruction::parts`] tells.
    pub parts: Parts,
    /// What [`Instruction::registers`] tells.
    pub registers: u8,
}

/// An operand with the number that belongs to it, if its form has one.
#[derive(Debug, Clone, Copy, PartialEq, Eq, Hash)]
pub struct Operand {
    pub spec: OperandSpec,
    /// As the listing counts it: signed for `Disp8_FB` and `Disp8`; for any other form what the field of the record holds.
    pub number: Option<i64>,
}

// Of document 01's alone: were there two, `Instruction::default()` would not say which.
impl Default for Instruction {
    /// The blank record.
    fn default() -> Self {
        Instruction {
            opcode: Opcode::NOP,
            width: Width::None,
            operands: [OperandSpec::Nothing; 3],
            imm_wide: 0,
            dispabs: 0,
            first: 0,
            length: 0,
            marked: false,
            dropped: false,
            parts: Parts::default(),
            registers: 0,
        }
    }
}

impl Instruction {
    /// The same record, taken for one of the manual's. Nothing is read anew: where the readings differ this is another instruction, or none.
    ///
    /// ```
    /// use m16c::{decode, decode_manual, encode_manual};
    ///
    /// // By document 01 an ADD of 1 to SP, marked; by the manual these bytes add -7.
    /// let bytes = [0x7D, 0xB9];
    /// let instruction = decode(&bytes, 0)?;
    /// assert_eq!((instruction.imm_wide, instruction.marked), (1, true));
    /// assert_eq!(decode_manual(&bytes, 0)?.imm_wide as i32, -7);
    ///
    /// let mut written = [0; 2];
    /// encode_manual(&instruction.to_manual(), &mut written, 0)?;
    /// assert_eq!(written, [0x7D, 0xB1]);
    /// encode_manual(&decode_manual(&bytes, 0)?, &mut written, 0)?;
    /// assert_eq!(written, bytes);
    /// # Ok::<(), Box<dyn std::error::Error>>(())
    /// ```
    pub fn to_manual(self) -> ManualInstruction {
        self.with_opcode(self.opcode.into())
    }
}

impl ManualInstruction {
    /// The blank record, for an instruction that is to be encoded.
    ///
    /// ```
    /// use m16c::{encode_manual, ManualInstruction, ManualOpcode, OperandSpec, Width};
    ///
    /// let jump = ManualInstruction {
    ///     opcode: ManualOpcode::JMPI_W,
    ///     width: Width::W,
    ///     operands: [OperandSpec::R2, OperandSpec::Nothing, OperandSpec::Nothing],
    ///     ..ManualInstruction::blank()
    /// };
    /// let mut bytes = [0; 2];
    /// assert_eq!(encode_manual(&jump, &mut bytes, 0), Ok(2));
    /// assert_eq!(bytes, [0x7D, 0x22]);
    /// ```
    pub fn blank() -> Self {
        Instruction::default().to_manual()
    }

    /// The same record, taken for one of document 01's. Nothing is read anew: where the readings differ this is another instruction, or
    /// none. There is none here for an opcode that document 01 does not have, `JMPI.W` or `JSRI.W`.
    pub fn to_document01(self) -> Option<Instruction> {
        self.opcode.common().map(|opcode| self.with_opcode(opcode))
    }
}

impl<O: AnyOpcode> Instruction<O> {
    /// The reading that it is of.
    pub fn reading(&self) -> Reading {
        O::READING
    }

    /// Operand 0, 1 or 2; none if there is none.
    pub fn operand(&self, idx: u8) -> Option<Operand> {
        let spec = *self.operands.get(usize::from(idx))?;
        (spec != OperandSpec::Nothing).then(|| Operand { spec, number: operand_number(self, idx.into()) })
    }

    /// Where the numbers stand in the bytes. Other bytes over a part make another number in its field, and change nothing else of the
    /// instruction but `dropped`: so a constant is changed in place, however many bytes encoding would take.
    ///
    /// Parts go by fields, not by operands: in the rows 74 3x and 75 3x, which document 01 marks, its `dispabs` was read as the displacement
    /// of the first operand, and the line shows it under the second, `Disp8_SP`.
    ///
    /// ```
    /// // Behind an INT a MOV.W #2, 34H[A0], with a displacement longer than it needs to be: encoding would shorten it.
    /// let mut image = [0xEB, 0xC5, 0x75, 0xCC, 0x34, 0x00, 0x02, 0x00];
    /// assert_eq!(m16c::line(&image, 2)?.as_str(), "0002 6 W MOV.W Imm16=0002 Disp16_A0=0034");
    ///
    /// let part = m16c::decode(&image, 2)?.parts().imm_wide.expect("an immediate behind the code");
    /// assert_eq!((part.offset, part.width), (4, 2));
    /// image[2..][part.range()].copy_from_slice(&1500_u16.to_le_bytes());
    /// assert_eq!(m16c::line(&image, 2)?.as_str(), "0002 6 W MOV.W Imm16=05DC Disp16_A0=0034");
    ///
    /// // The number of an INT is in its code.
    /// assert_eq!(m16c::decode(&image, 0)?.parts(), m16c::Parts::default());
    /// # Ok::<(), Box<dyn std::error::Error>>(())
    /// ```
    pub fn parts(&self) -> Parts {
        self.parts
    }

    /// How many registers the list of a `PUSHM` or `POPM` names, as decoding counted them; 0 for the empty list, which is accepted, and for
    /// every other instruction. [`Instruction::register_list`] names them.
    ///
    /// ```
    /// assert_eq!(m16c::decode(&[0xEC, 0xC9], 0)?.registers(), 4);
    /// assert_eq!(m16c::decode(&[0xED, 0x00], 0)?.registers(), 0);
    /// assert_eq!(m16c::decode(&[0xEB, 0xC5], 0)?.registers(), 0);
    /// # Ok::<(), m16c::Refused>(())
    /// ```
    pub fn registers(&self) -> u8 {
        self.registers
    }

    /// The registers that the list of a `PUSHM` or `POPM` names; none for every other instruction. It goes by the opcode, since the bits of
    /// the one are those of the other turned round, and by the low byte of `imm_wide`, so that it also tells of an instruction that is yet
    /// to be encoded.
    ///
    /// ```
    /// use m16c::OperandSpec::{A0, FB, R0, R1};
    ///
    /// let entry = m16c::decode(&[0xEC, 0xC9], 0)?;
    /// let exit = m16c::decode(&[0xED, 0x93], 0)?;
    /// assert!(entry.register_list().eq([R0, R1, A0, FB]));
    /// assert!(exit.register_list().eq([FB, A0, R1, R0]));
    ///
    /// // What was pushed is popped again.
    /// assert!(entry.register_list().eq(exit.register_list().rev()));
    /// # Ok::<(), m16c::Refused>(())
    /// ```
    pub fn register_list(&self) -> RegisterList {
        RegisterList::of(self)
    }

    fn with_opcode<P>(self, opcode: P) -> Instruction<P> {
        let Instruction {
            width, operands, imm_wide, dispabs, first, length, marked, dropped, parts, registers, ..
        } = self;
        Instruction { opcode, width, operands, imm_wide, dispabs, first, length, marked, dropped, parts, registers }
    }

    /// None if the numbers are those of no instruction.
    pub(crate) fn from_numbers(numbers: &Numbers) -> Option<Self> {
        let size = match numbers[index::SIZE] {
            0 => None,
            number => Some(Size::from_number(number)?),
        };
        let operand = |index: usize| OperandSpec::from_number(numbers[index]);
        Some(Instruction {
            opcode: O::from_number(numbers[index::OPCODE], size)?,
            width: Width::from_number(numbers[index::WIDTH])?,
            operands: [operand(index::OP0)?, operand(index::OP1)?, operand(index::OP2)?],
            imm_wide: numbers[index::IMM_WIDE],
            dispabs: numbers[index::DISPABS].try_into().ok()?,
            first: numbers[index::FIRST].try_into().ok()?,
            length: numbers[index::LENGTH].try_into().ok()?,
            marked: numbers[index::MARKED] != 0,
            dropped: numbers[index::DROPPED] != 0,
            parts: Parts::from_numbers(numbers)?,
            registers: numbers[index::REGISTERS].try_into().ok()?,
        })
    }

    /// What counts for an encoder; the rest is 0.
    pub(crate) fn numbers(&self) -> Numbers {
        let mut numbers = [0; index::NUMBERS];
        numbers[index::OPCODE] = self.opcode.number();
        numbers[index::SIZE] = self.opcode.size().map_or(0, Size::number);
        numbers[index::WIDTH] = self.width.number();
        numbers[index::OP0] = self.operands[0].number();
        numbers[index::OP1] = self.operands[1].number();
        numbers[index::OP2] = self.operands[2].number();
        numbers[index::IMM_WIDE] = self.imm_wide;
        numbers[index::DISPABS] = u32::from(self.dispabs);
        numbers[index::FIRST] = u32::from(self.first);
        numbers
    }
}
