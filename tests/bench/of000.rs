
// Appended to 000's lib.rs: its readers, its A and B tables, and the start of its `decode_into`, over many inputs. Sums are those of crates/bench.
pub mod bench {
    use super::*;
    pub type Bits = BitArray<Lsb0, u8>;

    fn of_operand(operand: Operand) -> u64 {
        match operand {
            Operand::None => 0,
            Operand::GPRegister(r) => 1000 + r.0 as u64,
            Operand::FloatRegister(r) => 2000 + r.0 as u64,
            Operand::PredicateRegister(r) => 3000 + r.0 as u64,
            Operand::ImmI64(n) => n as u64,
            Operand::ImmU64(n) => n,
            Operand::Memory(r) => 4000 + r.0 as u64,
            Operand::PSR => 5000,
            Operand::PSR_l => 5001,
            Operand::PSR_um => 5002,
            Operand::PR => 5003,
            Operand::IP => 5004,
            Operand::ApplicationRegister(r) => 6000 + r.0 as u64,
            Operand::BranchRegister(r) => 7000 + r.0 as u64,
            Operand::ControlRegister(r) => 8000 + r.0 as u64,
            Operand::Indirection(_, r) => 9000 + r.0 as u64,
        }
    }

    fn of_reading((position, operands): (Option<u8>, [Operand; 5])) -> u64 {
        let position = match position {
            None => 0,
            Some(n) => 1 + n as u64,
        };
        operands.into_iter().fold(position, |sum, operand| sum.wrapping_add(of_operand(operand)))
    }

    /// A word of a slot and its L word, as 000 holds them.
    pub fn bits(word: u64, l: u64) -> Bits {
        Bits::of_words(word, l)
    }

    macro_rules! family {
        ($name:ident, $encoding:ident, $read:ident, $($form:ident)*) => {
            #[inline(never)]
            fn $name(numbers: &[u64], words: &[Bits]) -> u64 {
                const FORMS: &[$encoding] = &[$($encoding::$form),*];
                let mut sum = 0u64;
                for (number, bits) in numbers.iter().zip(words) {
                    sum = sum.wrapping_add(of_reading($read(FORMS[*number as usize - 1], &bits[0..41])));
                }
                sum
            }
        };
    }
    family!(a, OperandEncodingA, read_a_operands, A1 A2 A3 A4 A5 A6 A7 A8 A9 A10);
    family!(b, OperandEncodingB, read_b_operands, B1 B2 B3 B4 B5 B6 B7 B8 B9);
    family!(f, OperandEncodingF, read_f_operands, F1 F2 F3 F4 F5 F6 F7 F8 F9 F10 F11 F12 F13 F14 F15 F16);
    family!(i, OperandEncodingI, read_i_operands, I1 I2 I3 I4 I5 I6 I7 I8 I9 I10 I11 I12 I13 I14 I15 I16 I17 I18 I19 I20 I21 I22 I23 I24
        I25 I26 I27 I28 I29 I30);
    family!(m, OperandEncodingM, read_m_operands, M1 M2 M3 M4 M5 M6 M7 M8 M9 M10 M11 M12 M13 M14 M15 M16 M17 M18 M19 M20 M21 M22 M23 M24
        M25 M26 M27 M28 M29 M30 M31 M32 M33 M34 M35 M36 M37 M38 M39 M40 M41 M42 M43 M44 M45 M46 M47 M48);

    #[inline(never)]
    fn x(numbers: &[u64], words: &[Bits]) -> u64 {
        use OperandEncodingX::*;
        const FORMS: &[OperandEncodingX] = &[X1, X2, X3, X4, X5];
        let mut sum = 0u64;
        for (number, bits) in numbers.iter().zip(words) {
            sum = sum.wrapping_add(of_reading(read_l_operands(FORMS[*number as usize - 1], &bits[0..41], &bits[64..105])));
        }
        sum
    }

    pub fn operands(family: u8, numbers: &[u64], words: &[Bits]) -> u64 {
        match family {
            b'A' => a(numbers, words),
            b'B' => b(numbers, words),
            b'F' => f(numbers, words),
            b'I' => i(numbers, words),
            b'M' => m(numbers, words),
            b'X' => x(numbers, words),
            _ => 0,
        }
    }

    /// An entry of a table: what is answered, 14 where there is no form, with the form's number, and the opcode, or none.
    fn of_entry(opcode: Opcode, number: u64) -> (u64, Option<Opcode>) {
        if number == 0 { (14, None) } else { (number, Some(opcode)) }
    }

    /// Opcode and form of a unit's words, as `decode_into` asks its A and B tables. The opcodes are put out.
    #[inline(never)]
    pub fn choose(unit: u8, words: &[Bits], opcodes: &mut [Option<Opcode>]) -> u64 {
        let mut sum = 0u64;
        for (bits, put) in words.iter().zip(opcodes) {
            let word = &bits[0..41];
            let tag = word[37..41].load::<u8>();
            let (number, opcode) = match unit {
                b'M' | b'I' if tag >= 8 => {
                    let (opcode, form) = get_a_opcode_and_encoding(tag, word);
                    of_entry(opcode, form as u64)
                }
                b'B' => {
                    let (opcode, form) = get_b_opcode_and_encoding(tag, word);
                    of_entry(opcode, form as u64)
                }
                _ => (14, None),
            };
            sum = sum.wrapping_add(number);
            *put = opcode;
        }
        sum
    }

    /// The lines of `decode_into` from its start up to the choice of an opcode, the words loaded as numbers.
    fn cut_one<T: Reader<u64, u8>>(bytes: &mut T) -> Result<(u8, BundleDesc, [u64; 3]), DecodeError> {
        let mut ia64_word = [0u8; 16];
        bytes.next_n(&mut ia64_word)?;
        let mut instruction_bytes = bitarr![Lsb0, u8; 0u8; 128];
        for i in 0..0u64.wrapping_offset(InstructionBundle::min_size()).to_linear() {
            instruction_bytes[(i * 8)..(i * 8 + 8)].store(ia64_word[i]);
        }
        let bundle_tag = instruction_bytes[0..5].load::<u8>();
        let instruction_words = [
            &instruction_bytes[5..46],
            &instruction_bytes[46..87],
            &instruction_bytes[87..128],
        ];
        let described = BUNDLE_TAGS[bundle_tag as usize].ok_or(DecodeError::BadBundle)?;
        Ok((bundle_tag, described, instruction_words.map(|word| word.load::<u64>())))
    }

    fn letter(unit: InstructionType) -> u64 {
        (match unit {
            InstructionType::A => b'A',
            InstructionType::I => b'I',
            InstructionType::M => b'M',
            InstructionType::F => b'F',
            InstructionType::B => b'B',
            InstructionType::L => b'L',
            InstructionType::X => b'X',
        }) as u64
    }

    #[inline(never)]
    pub fn cut(code: &[u8]) -> u64 {
        let mut sum = 0u64;
        for bundle in code.chunks_exact(16) {
            if let Ok((tag, (units, stops), slots)) = cut_one(&mut yaxpeax_arch::Bytes(bundle)) {
                sum = sum.wrapping_add(tag as u64);
                sum = units.into_iter().fold(sum, |sum, unit| sum.wrapping_add(letter(unit)));
                // as its `Display` takes them: tag 5's one stands after another slot than the manual's, which a sum doesn't show
                sum = [(stops & 0b100) > 0, (stops & 0b010) > 0, (stops & 0b001) > 0].into_iter().fold(sum, |sum, stop| sum.wrapping_add(stop as u64));
                sum = slots.into_iter().fold(sum, u64::wrapping_add);
            }
        }
        sum
    }
}
