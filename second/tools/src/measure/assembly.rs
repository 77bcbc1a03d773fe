//! The functions of a disassembly for x86-64, as llvm-objdump or objdump prints it: what each
//! instruction does to the stack, and where it leads.

/// A function.
pub struct Function<'a> {
    /// Its name.
    pub name: &'a str,
    lines: Vec<Line<'a>>,
}

/// An instruction.
#[derive(Debug, PartialEq, Eq)]
pub struct Step {
    /// Where it stands.
    pub at: u64,
    /// Octets that it puts on the stack; less than 0 if it takes some off.
    pub grows: i64,
    /// How many octets below the stack pointer it reaches.
    pub below: i64,
    /// Where it leads.
    pub leads: Leads,
}

/// Where an instruction leads.
#[derive(Debug, PartialEq, Eq)]
pub enum Leads {
    /// To the next one.
    On,
    /// To the next one, and it only fills a gap.
    Filler,
    /// To an address.
    To(u64, Made),
    /// To a place of the function that a table tells. Rattle has no pointers to functions, so none
    /// of its computed jumps leaves the function.
    Computed,
    /// Into another function, and then to the next one.
    Call(String),
    /// Into another function, which returns in this one's place.
    Instead(String, Made),
    /// Back to the caller.
    Back,
    /// Nowhere: the program is stopped.
    Stop,
}

/// Whether a jump is made.
#[derive(Clone, Copy, Debug, PartialEq, Eq)]
pub enum Made {
    /// It has no condition.
    Always,
    /// It has one, and may lead to the next instruction as well.
    Perhaps,
}

/// Names of the stack pointer and of its parts.
const POINTER: [&str; 4] = ["%rsp", "%esp", "%sp", "%spl"];
/// Instructions that move it in ways of their own.
const UNUSUAL: [&str; 8] = [
    "enter", "leave", "pushw", "popw", "pushf", "popf", "pushfw", "popfw",
];
/// Words that stand before an instruction.
const PREFIXES: [&str; 10] = [
    "lock", "rep", "repe", "repz", "repne", "repnz", "notrack", "bnd", "data16", "cs",
];

/// The functions of a disassembly that shows relocations.
pub fn functions(text: &str) -> Vec<Function<'_>> {
    let mut functions: Vec<Function> = Vec::new();
    for line in text.lines() {
        if let Some(name) = heading(line) {
            let lines = Vec::new();
            functions.push(Function { name, lines });
        }
        let (Some(function), Some(line)) = (functions.last_mut(), Line::read(line)) else {
            continue;
        };
        if !line.word.starts_with("R_X86_64_") {
            function.lines.push(line);
        } else if let Some(last) = function.lines.last_mut() {
            last.refers = Some(line.operands);
        }
    }
    functions
}

impl Function<'_> {
    /// Its instructions as they stand. An error tells of one that cannot be followed.
    pub fn steps(&self) -> Result<Vec<Step>, String> {
        let step = |line: &Line| {
            line.step().map_err(|why| {
                let text = [line.word, line.operands].join(" ");
                format!("has '{}', which {why}", text.trim_end())
            })
        };
        self.lines.iter().map(step).collect()
    }
}

/// The name in the line before a function, `0000000000000000 <name>:`.
fn heading(line: &str) -> Option<&str> {
    let (address, name) = line.strip_suffix(">:")?.split_once(" <")?;
    u64::from_str_radix(address, 16).ok().map(|_| name)
}

/// The text of an instruction, or of the relocation behind it.
struct Line<'a> {
    at: u64,
    word: &'a str,
    operands: &'a str,
    /// What the relocation of an instruction refers to.
    refers: Option<&'a str>,
}

impl<'a> Line<'a> {
    /// Reads a line such as `a:  subq  $488, %rsp  # imm = 0x1E8`.
    fn read(line: &'a str) -> Option<Line<'a>> {
        let (at, rest) = line.trim_start().split_once(':')?;
        let at = u64::from_str_radix(at, 16).ok()?;
        let rest = rest.split('#').next()?.trim();
        let (mut word, mut operands) = first_word(rest);
        while PREFIXES.contains(&word) && !operands.is_empty() {
            (word, operands) = first_word(operands);
        }
        let refers = None;
        (!word.is_empty()).then_some(Line {
            at,
            word,
            operands,
            refers,
        })
    }

    fn step(&self) -> Result<Step, &'static str> {
        Ok(Step {
            at: self.at,
            grows: self.grows().ok_or("moves the stack in a way of its own")?,
            below: below(self.operands),
            leads: self.leads()?,
        })
    }

    /// The word without the letter for a size of eight octets, which objdump leaves out.
    fn plain(&self) -> &str {
        self.word.strip_suffix('q').unwrap_or(self.word)
    }

    fn grows(&self) -> Option<i64> {
        let (first, last) = first_and_last(self.operands);
        let constant = || number(first.strip_prefix('$')?);
        match (self.plain(), last) {
            ("push", _) => Some(8),
            ("pop", last) if !POINTER.contains(&last) => Some(-8),
            ("sub", "%rsp") => constant(),
            ("add", "%rsp") => constant().map(|n| -n),
            ("lea", "%rsp") => number(first.strip_suffix("(%rsp)")?).map(|n| -n),
            (word, last) if UNUSUAL.contains(&word) || POINTER.contains(&last) => None,
            _ => Some(0),
        }
    }

    fn leads(&self) -> Result<Leads, &'static str> {
        let function = || {
            self.function()
                .ok_or("leads into a function without a name")
        };
        let made = match self.plain() {
            "jmp" => Made::Always,
            _ => Made::Perhaps,
        };
        Ok(match self.plain() {
            "ret" => Leads::Back,
            "ud2" | "hlt" | "int3" => Leads::Stop,
            "call" => Leads::Call(function()?),
            "jmp" if self.operands.starts_with('*') => Leads::Computed,
            "xchg" if first_and_last(self.operands) == ("%ax", "%ax") => Leads::Filler,
            word if word.starts_with("nop") => Leads::Filler,
            word if !word.starts_with('j') => match word.starts_with(char::is_alphabetic) {
                true => Leads::On,
                false => return Err("is not an instruction"),
            },
            _ if self.refers.is_some() => Leads::Instead(function()?, made),
            _ => Leads::To(self.address().ok_or("leads to no address")?, made),
        })
    }

    fn address(&self) -> Option<u64> {
        let (address, _) = first_word(self.operands);
        let digits = address.strip_prefix("0x").unwrap_or(address);
        u64::from_str_radix(digits, 16).ok()
    }

    /// The function that a call or a jump leads into. Each has a section of its own, so a
    /// relocation may name that instead, and counts from the end of the four octets it fills.
    fn function(&self) -> Option<String> {
        if self.operands.starts_with('*') {
            return None;
        }
        let name = match self.refers {
            Some(symbol) => {
                let name = symbol.strip_suffix("-0x4")?;
                name.strip_prefix(".text.").unwrap_or(name)
            }
            None => {
                let (_, name) = self.operands.strip_suffix('>')?.split_once('<')?;
                Some(name).filter(|name| !name.contains("+0x"))?
            }
        };
        Some(name.into())
    }
}

fn first_word(text: &str) -> (&str, &str) {
    let (word, rest) = text.split_once(char::is_whitespace).unwrap_or((text, ""));
    (word, rest.trim_start())
}

/// The first and the last operand, which are parted by commas outside of brackets.
fn first_and_last(operands: &str) -> (&str, &str) {
    let mut open = false;
    let parts = |c: char| {
        open = c == '(' || open && c != ')';
        c == ',' && !open
    };
    let mut operands = operands.split(parts).map(str::trim);
    let first = operands.next().unwrap_or("");
    (first, operands.last().unwrap_or(first))
}

/// How far the operands reach below the stack pointer, as `-24(%rsp)` does.
fn below(operands: &str) -> i64 {
    let places = operands.match_indices("(%rsp").filter_map(|(bracket, _)| {
        let before = &operands[..bracket];
        number(before.rsplit([' ', ',', ':', '*']).next()?)
    });
    places.map(|place| -place).fold(0, i64::max)
}

/// A number, decimal or with `0x`; one of 64 bits may stand for a negative one. Instructions have
/// no larger ones than of 32 bits.
fn number(text: &str) -> Option<i64> {
    let digits = text.strip_prefix('-').unwrap_or(text);
    let size = match digits.strip_prefix("0x") {
        Some(digits) => u64::from_str_radix(digits, 16),
        None => digits.parse(),
    };
    let size = size.ok()? as i64;
    let number = if digits == text {
        size
    } else {
        size.wrapping_neg()
    };
    i32::try_from(number).ok().map(i64::from)
}
