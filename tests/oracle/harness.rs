
// Appended to 000's lib.rs: answers lines about its private readers and about how it cuts a bundle.
//   F N WORD L     POS O0 O1 O2 O3 O4: what the reader of that form reads (F the family's byte)
//   parts F N WORD L   the bit parts that it looks at on the way, as 6..13, those of the L word after an L
//   choose U WORD  FORM OPCODE: what its A or B table has for a word of that unit (U the letter's byte), or - -
//   cut HEX32      TAG UNITS W0 W1 W2, the units with their stops as `MI;I;`, or TAG BadBundle W0 W1 W2
fn main() {
    harness::main()
}

mod harness {
    use super::*;
    use bitvec::trace;
    use std::io::{BufRead, Write};

    type Bits = BitArray<Lsb0, u8>;
    type Read = (Option<u8>, [Operand; 5]);

    /// The encoding of that name, its name being the family's letter and the number.
    fn named<E: Copy + fmt::Debug>(all: &[E], family: u8, number: u64) -> Option<E> {
        let name = format!("{}{}", char::from(family), number);
        all.iter().copied().find(|one| format!("{one:?}") == name)
    }

    fn read(family: u8, number: u64, bits: &Bits) -> Option<Read> {
        let (word, l) = (&bits[0..41], &bits[64..105]);
        thread_local!(static LAST: core::cell::Cell<Option<(u8, u64, Form)>> = const { core::cell::Cell::new(None) });
        let form = match LAST.with(|last| last.get()) {
            Some((f, n, form)) if f == family && n == number => form,
            _ => form(family, number)?,
        };
        LAST.with(|last| last.set(Some((family, number, form))));
        Some(match form {
            Form::A(encoding) => read_a_operands(encoding, word),
            Form::B(encoding) => read_b_operands(encoding, word),
            Form::F(encoding) => read_f_operands(encoding, word),
            Form::I(encoding) => read_i_operands(encoding, word),
            Form::M(encoding) => read_m_operands(encoding, word),
            Form::X(encoding) => read_l_operands(encoding, word, l),
        })
    }

    #[derive(Copy, Clone)]
    enum Form {
        A(OperandEncodingA),
        B(OperandEncodingB),
        F(OperandEncodingF),
        I(OperandEncodingI),
        M(OperandEncodingM),
        X(OperandEncodingX),
    }

    fn form(family: u8, number: u64) -> Option<Form> {
        match family {
            b'A' => {
                use OperandEncodingA::*;
                named(&[A1, A2, A3, A4, A5, A6, A7, A8, A9, A10], family, number).map(Form::A)
            }
            b'B' => {
                use OperandEncodingB::*;
                named(&[B1, B2, B3, B4, B5, B6, B7, B8, B9], family, number).map(Form::B)
            }
            b'F' => {
                use OperandEncodingF::*;
                named(&[F1, F2, F3, F4, F5, F6, F7, F8, F9, F10, F11, F12, F13, F14, F15, F16], family, number).map(Form::F)
            }
            b'I' => {
                use OperandEncodingI::*;
                let all = [
                    I1, I2, I3, I4, I5, I6, I7, I8, I9, I10, I11, I12, I13, I14, I15, I16, I17, I18, I19, I20, I21, I22, I23, I24, I25,
                    I26, I27, I28, I29, I30,
                ];
                named(&all, family, number).map(Form::I)
            }
            b'M' => {
                use OperandEncodingM::*;
                let all = [
                    M1, M2, M3, M4, M5, M6, M7, M8, M9, M10, M11, M12, M13, M14, M15, M16, M17, M18, M19, M20, M21, M22, M23, M24,
                    M25, M26, M27, M28, M29, M30, M31, M32, M33, M34, M35, M36, M37, M38, M39, M40, M41, M42, M43, M44, M45, M46, M47, M48,
                ];
                named(&all, family, number).map(Form::M)
            }
            b'X' => {
                use OperandEncodingX::*;
                named(&[X1, X2, X3, X4, X5], family, number).map(Form::X)
            }
            _ => None,
        }
    }

    fn write_operand(out: &mut impl Write, operand: &Operand) -> std::io::Result<()> {
        match operand {
            Operand::None => write!(out, " None"),
            Operand::GPRegister(r) => write!(out, " G{}", r.0),
            Operand::FloatRegister(r) => write!(out, " F{}", r.0),
            Operand::PredicateRegister(r) => write!(out, " P{}", r.0),
            Operand::BranchRegister(r) => write!(out, " B{}", r.0),
            Operand::ApplicationRegister(r) => write!(out, " AR{}", r.0),
            Operand::ControlRegister(r) => write!(out, " CR{}", r.0),
            Operand::ImmI64(n) => write!(out, " I{n}"),
            Operand::ImmU64(n) => write!(out, " U{n}"),
            Operand::Memory(r) => write!(out, " Mem{}", r.0),
            Operand::PSR => write!(out, " PSR"),
            Operand::PSR_l => write!(out, " PSR_l"),
            Operand::PSR_um => write!(out, " PSR_um"),
            Operand::PR => write!(out, " PR"),
            Operand::IP => write!(out, " IP"),
            Operand::Indirection(of, r) => write!(out, " Ind:{of:?}:{}", r.0),
        }
    }

    /// The reading of a line `F N WORD L`.
    fn reading(out: &mut impl Write, fields: &[&str]) -> Option<()> {
        let (family, number, bits) = asked(fields)?;
        let (position, operands) = read(family, number, &bits)?;
        match position {
            Some(n) => write!(out, "{n}").ok()?,
            None => write!(out, "-").ok()?,
        }
        for operand in &operands {
            write_operand(out, operand).ok()?;
        }
        Some(())
    }

    fn asked(fields: &[&str]) -> Option<(u8, u64, Bits)> {
        let [family, number, word, l] = fields else { return None };
        let bits = Bits::of_words(word.parse().ok()?, l.parse().ok()?);
        Some((family.parse().ok()?, number.parse().ok()?, bits))
    }

    fn parts(out: &mut impl Write, fields: &[&str]) -> Option<()> {
        let (family, number, bits) = asked(fields)?;
        trace::begin();
        let known = read(family, number, &bits);
        let all = trace::end();
        known?;
        // the first two are the words themselves
        for (i, part) in all[2..].iter().enumerate() {
            let (mark, base) = if part.start < 64 { ("", 0) } else { ("L", 64) };
            let gap = if i == 0 { "" } else { " " };
            write!(out, "{gap}{mark}{}..{}", part.start - base, part.end - base).ok()?;
        }
        Some(())
    }

    /// What the table that `decode_into` asks has for the word: an M or I word whose major opcode is 8 or more is an A word. An entry
    /// without a form, and a word that is for neither table, is `- -`.
    fn choose(out: &mut impl Write, fields: &[&str]) -> Option<()> {
        let [unit, word] = fields else { return None };
        let bits = Bits::of_words(word.parse().ok()?, 0);
        let word = &bits[0..41];
        let major = word[37..41].load::<u8>();
        let (opcode, form) = match unit.parse().ok()? {
            b'M' | b'I' if 8 <= major => named_entry(get_a_opcode_and_encoding(major, word)),
            b'B' => named_entry(get_b_opcode_and_encoding(major, word)),
            _ => return write!(out, "- -").ok(),
        };
        if form == "None" { write!(out, "- -").ok() } else { write!(out, "{form} {opcode}").ok() }
    }

    fn named_entry<E: fmt::Debug>((opcode, form): (Opcode, E)) -> (String, String) {
        (format!("{opcode:?}"), format!("{form:?}"))
    }

    /// The units, with `;` after each that a stop follows, by the bits that 000's `Display` looks at.
    fn marked((units, stops): BundleDesc) -> String {
        units.iter().zip([0b100, 0b010, 0b001]).map(|(unit, bit)| format!("{unit}{}", if stops & bit > 0 { ";" } else { "" })).collect()
    }

    /// The start of `decode_into` on sixteen bytes: the tag that it stores, whether it refuses, and
    /// the three words as it cuts them itself. What comes after, the choice of an opcode, is no
    /// part of this and may panic.
    fn cut(out: &mut impl Write, fields: &[&str]) -> Option<()> {
        let [hex] = fields else { return None };
        let mut bytes = [0; 16];
        for i in 0..16 {
            bytes[i] = u8::from_str_radix(hex.get(i * 2..i * 2 + 2)?, 16).ok()?;
        }
        let mut bundle = InstructionBundle::default();
        trace::begin();
        let ended = std::panic::catch_unwind(core::panic::AssertUnwindSafe(|| {
            InstDecoder::default().decode_into(&mut bundle, &mut yaxpeax_arch::Bytes(&bytes))
        }));
        let taken = trace::end();
        let bits = Bits::of_bytes(bytes);
        let units = match ended {
            Ok(Err(DecodeError::BadBundle)) => String::from("BadBundle"),
            Ok(Err(other)) => format!("{other:?}"),
            Ok(Ok(())) | Err(_) => marked(BUNDLE_TAGS[usize::from(bundle.bundle_tag())]?),
        };
        write!(out, "{} {units}", bundle.bundle_tag()).ok()?;
        // the first part taken is the tag's
        for word in taken.get(1..4)? {
            write!(out, " {}", bits[word.clone()].load::<u64>()).ok()?;
        }
        Some(())
    }

    pub fn main() {
        std::panic::set_hook(Box::new(|_| ()));
        let mut out = std::io::BufWriter::with_capacity(1 << 20, std::io::stdout().lock());
        let mut input = std::io::BufReader::with_capacity(1 << 20, std::io::stdin().lock());
        let mut line = String::new();
        while 0 < input.read_line(&mut line).expect("standard input") {
            let fields: Vec<&str> = line.trim_end().split(' ').collect();
            let known = match fields[0] {
                "choose" => choose(&mut out, &fields[1..]),
                "cut" => cut(&mut out, &fields[1..]),
                "parts" => parts(&mut out, &fields[1..]),
                _ => reading(&mut out, &fields),
            };
            out.write_all(if known.is_some() { b"\n" } else { b"error\n" }).expect("standard output");
            line.clear();
        }
    }
}
