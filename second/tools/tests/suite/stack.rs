//! The stack of a call and the code of a library, as `measure` reads them off listings.

use tools::measure::library;
use tools::measure::stack::{deepest, Deepest};

/// As llvm-objdump prints it: `call` has three registers and 40 octets on the stack, calls `deep`
/// and the C library; `deep` has one register and reaches 24 octets below the stack pointer.
pub const LLVM: &str = "
library.a(part.o):\tfile format elf64-x86-64

Sections:
Idx Name                  Size     VMA              Type
  0                       00000000 0000000000000000
  1 .strtab               00000102 0000000000000000
  2 .text                 00000000 0000000000000000 TEXT
  3 .text.part::deep      0000000d 0000000000000000 TEXT
  4 .text.call            0000002e 0000000000000000 TEXT
  5 .rela.text.call       00000048 0000000000000000
  6 .rodata.call          00000010 0000000000000000 DATA

Disassembly of section .text.part::deep:

0000000000000000 <part::deep>:
       0:      \tpushq\t%rbx
       1:      \tmovq\t%rax, -24(%rsp)
       6:      \taddq\t-8(%rsp,%rcx), %rax
       b:      \tpopq\t%rbx
       c:      \tretq

Disassembly of section .text.call:

0000000000000000 <call>:
       0:      \tpushq\t%r15
       2:      \tpushq\t%r14
       4:      \tpushq\t%rbx
       5:      \tsubq\t$40, %rsp               # imm = 0x28
       9:      \tcmpq\t$21, %rsi
       d:      \tjbe\t0x20 <call+0x20>
       f:      \tcallq\t0x14 <call+0x14>
\t\t0000000000000010:  R_X86_64_PLT32\t.text.part::deep-0x4
      14:      \taddq\t$40, %rsp
      18:      \tpopq\t%rbx
      19:      \tpopq\t%r14
      1b:      \tpopq\t%r15
      1d:      \tretq
      1e:      \tnop
      20:      \tleaq\t(%rip), %rsi            # 0x27 <call+0x27>
\t\t0000000000000023:  R_X86_64_PC32\t.rodata.call-0x4
      27:      \tcallq\t0x2c <call+0x2c>
\t\t0000000000000028:  R_X86_64_PLT32\tmemcpy-0x4
      2c:      \tjmp\t0x14 <call+0x14>
";

/// As objdump prints the same.
const GNU: &str = "
In archive library.a:

part.o:     file format elf64-x86-64

Sections:
Idx Name          Size      VMA               LMA               File off  Algn
  0 .text         00000000  0000000000000000  0000000000000000  00000040  2**2
                  CONTENTS, ALLOC, LOAD, READONLY, CODE
  1 .text.part::deep 0000000d  0000000000000000  0000000000000000  00000040  2**4
                  CONTENTS, ALLOC, LOAD, READONLY, CODE
  2 .text.call    0000002e  0000000000000000  0000000000000000  00000050  2**4
                  CONTENTS, ALLOC, LOAD, RELOC, READONLY, CODE
  3 .rodata.call  00000010  0000000000000000  0000000000000000  00000080  2**0
                  CONTENTS, ALLOC, LOAD, READONLY, DATA

Disassembly of section .text.part::deep:

0000000000000000 <part::deep>:
   0:\tpush   %rbx
   1:\tmov    %rax,-0x18(%rsp)
   6:\tadd    -0x8(%rsp,%rcx,1),%rax
   b:\tpop    %rbx
   c:\tret

Disassembly of section .text.call:

0000000000000000 <call>:
   0:\tpush   %r15
   2:\tpush   %r14
   4:\tpush   %rbx
   5:\tsub    $0x28,%rsp
   9:\tcmp    $0x15,%rsi
   d:\tjbe    20 <call+0x20>
   f:\tcall   14 <call+0x14>
\t\t\t10: R_X86_64_PLT32\t.text.part::deep-0x4
  14:\tsub    $0xffffffffffffffd8,%rsp
  18:\tpop    %rbx
  19:\tpop    %r14
  1b:\tpop    %r15
  1d:\trepz ret
  1f:\txchg   %ax,%ax
  20:\tlea    0x0(%rip),%rsi        # 27 <call+0x27>
\t\t\t23: R_X86_64_PC32\t.rodata.call-0x4
  27:\tcall   2c <call+0x2c>
\t\t\t28: R_X86_64_PLT32\tmemcpy-0x4
  2c:\tjmp    14 <call+0x14>
";

fn way(functions: &[(&str, i64)]) -> Result<Deepest, String> {
    let functions = functions
        .iter()
        .map(|(name, octets)| ((*name).into(), *octets));
    Ok(Deepest(functions.collect()))
}

/// A function of the given instructions, at 0, 1, 2 and so on; relocations stand behind theirs.
pub fn function(name: &str, instructions: &[&str]) -> String {
    let mut text = format!("\n0000000000000000 <{name}>:\n");
    let mut at = 0;
    for instruction in instructions {
        text += &format!("  {at:x}:\t{instruction}\n");
        at += u64::from(!instruction.starts_with("R_"));
    }
    text
}

fn of(instructions: &[&str]) -> Result<i64, String> {
    deepest("f", &function("f", instructions)).map(|found| found.octets())
}

#[test]
fn both_forms_of_a_disassembly_are_read() {
    for text in [LLVM, GNU] {
        let found = deepest("call", text);
        assert_eq!(found, way(&[("call", 72), ("part::deep", 40)]));
        assert_eq!(found.unwrap().to_string(), "call 72, part::deep 40");
        assert_eq!(deepest("part::deep", text), way(&[("part::deep", 40)]));
    }
}

#[test]
fn the_deepest_of_several_ways_counts() {
    let call = |name: &str| format!("R_X86_64_PLT32\t{name}-0x4");
    let (small, large) = (call("small"), call(".text.large"));
    let two = [
        "push %rax",
        "call 2 <f+2>",
        &small,
        "pop %rax",
        "call 4 <f+4>",
        &large,
        "ret",
    ];
    let small = function("small", &["sub $0x20, %rsp", "add $0x20, %rsp", "ret"]);
    let large = function("large", &["sub $0x24, %rsp", "add $0x24, %rsp", "ret"]);
    let text = [function("f", &two), small, large].concat();
    // The smaller one is called with more on the stack: 16 + 40 are more than 8 + 44.
    assert_eq!(deepest("f", &text), way(&[("f", 16), ("small", 40)]));
    let text = text.replace("0x24", "0x40");
    assert_eq!(deepest("f", &text), way(&[("f", 8), ("large", 72)]));
    // A function of the same section has no relocation.
    let near = function("g", &["push %rax", "call 0 <f>", "pop %rax", "ret"]);
    let found = deepest("g", &[text, near].concat());
    assert_eq!(found, way(&[("g", 16), ("f", 8), ("large", 72)]));
}

/// The stack of a function that computes jumps with 8 and with 16 octets, and of what they lead to.
fn behind_two_depths(led_to: &[&str]) -> Result<i64, String> {
    let jumps = ["je 2", "jmp *%rax", "push %rax", "jmp *%rax"];
    of(&[&jumps, led_to].concat())
}

#[test]
fn what_computed_jumps_lead_to_has_a_depth_that_agrees() {
    let lower = ["push %rbx", "pop %rbx", "ret"];
    assert_eq!(behind_two_depths(&lower), Ok(16));
    let higher = ["push %rbx", "pop %rbx", "pop %rax", "ret"];
    assert_eq!(behind_two_depths(&higher), Ok(24));
    // If each does, the highest.
    assert_eq!(behind_two_depths(&["push %rbx", "ud2"]), Ok(24));
    let why = "f leaves with 8 octets on the stack";
    assert_eq!(behind_two_depths(&["push %rbx", "ret"]), Err(why.into()));
}

#[test]
fn the_stack_is_followed_along_jumps() {
    // Registers are saved on some ways only, once on each.
    let arms = ["je 4", "push %rax", "pop %rax", "ret", "push %rax", "jmp 2"];
    assert_eq!(of(&arms), Ok(16));
    // What stands behind a computed jump has its depth.
    let table = [
        "push %rbx",
        "jmp *%rax",
        "push %rbp",
        "pop %rbp",
        "pop %rbx",
        "ret",
        "nop",
    ];
    assert_eq!(of(&table), Ok(24));
    // What cannot be reached takes nothing.
    assert_eq!(of(&["ud2", "sub $0x400,%rsp"]), Ok(8));
    assert_eq!(
        of(&["lea -0x10(%rsp),%rsp", "lea 0x10(%rsp),%rsp", "ret"]),
        Ok(24)
    );
}

#[test]
fn a_function_that_returns_in_anothers_place_stands_in_its_place() {
    let jump = ["push %rax", "pop %rax", "jmp 3", "R_X86_64_PLT32\tg-0x4"];
    let text = [
        function("f", &jump),
        function("g", &["push %rbx", "pop %rbx", "ret"]),
    ]
    .concat();
    assert_eq!(deepest("f", &text), way(&[("f", 16)]));
    let deeper = text
        .replace("push %rbx", "sub $0x20,%rsp")
        .replace("pop %rbx", "add $0x20,%rsp");
    assert_eq!(deepest("f", &deeper), way(&[("f", 0), ("g", 40)]));
    let perhaps = deeper.replace("jmp 3", "je 3");
    assert_eq!(deepest("f", &perhaps), way(&[("f", 0), ("g", 40)]));
    let not_yet = deeper.replace("pop %rax", "nop");
    assert_eq!(
        deepest("f", &not_yet).unwrap_err(),
        "f leaves with 8 octets on the stack"
    );
}

#[test]
fn frames_that_cannot_be_read_are_refused() {
    let own = [
        "sub %rax,%rsp",
        "and $-32,%rsp",
        "mov %rbp,%rsp",
        "leave",
        "pushf",
        "pop %rsp",
    ];
    for instruction in own {
        let why = of(&["push %rbp", instruction, "ret"]).unwrap_err();
        let told = format!("f has '{instruction}', which moves the stack in a way of its own");
        assert_eq!(why, told);
    }
}

#[test]
fn ways_that_cannot_be_followed_are_refused() {
    let nameless = "leads into a function without a name";
    for (instructions, why) in [
        ("push %rax; ret", "leaves with 8 octets on the stack"),
        (
            "je 2; push %rax; ret",
            "comes to 2 with 8 and with 16 octets",
        ),
        ("jmp 9", "jumps to 9, out of its instructions"),
        ("jmp", "has 'jmp', which leads to no address"),
        ("(bad)", "has '(bad)', which is not an instruction"),
        ("", "has no instruction"),
        ("call 0 <f>; ret", "calls itself, at once or by others"),
        ("call *%rax", &format!("has 'call *%rax', which {nameless}")),
        (
            "call 1 <f+0x1>",
            &format!("has 'call 1 <f+0x1>', which {nameless}"),
        ),
    ] {
        let list: Vec<&str> = instructions.split_terminator("; ").collect();
        assert_eq!(of(&list), Err(format!("f {why}")));
    }
}

#[test]
fn libraries_that_cannot_be_followed_are_refused() {
    let why = |call: &str, parts: &[&str]| deepest(call, &parts.concat()).unwrap_err();
    assert_eq!(why("memcpy", &[LLVM]), "it has no function memcpy");
    let twice = "it has two functions part::deep";
    assert_eq!(why("call", &[LLVM, LLVM]), twice);
    let calls = |name: &str, other: &str| function(name, &[&format!("call 0 <{other}>"), "ret"]);
    let (f, g) = (calls("f", "g"), calls("g", "f"));
    assert_eq!(why("f", &[&f]), "it has no function g");
    let itself = "f calls itself, at once or by others";
    assert_eq!(why("f", &[&f, &g]), itself);
    // What is not on the way is not read.
    let other = function("other", &["leave", "ret"]);
    assert!(deepest("call", &[LLVM, &other].concat()).is_ok());
}

#[test]
fn octets_are_summed_over_the_sections_of_a_name() {
    let code = |listing: &str| library::octets(".text", listing);
    for listing in [LLVM, GNU] {
        assert_eq!(code(listing), Ok(0x0d + 0x2e));
        assert_eq!(library::octets(".rodata", listing), Ok(0x10));
        // Each part of an archive has sections of its own.
        assert_eq!(code(&[listing, listing].concat()), Ok(2 * (0x0d + 0x2e)));
        let larger = listing.replace(" 0000002e ", " 0001002e ");
        assert_eq!(code(&larger), Ok(0x1_003b));
        let other = listing.replace(" .text.call ", " .textcall  ");
        assert_eq!(code(&other), Ok(0x0d));
    }
    let one = "  1 .text 000000ff  0000000000000000  0000000000000000  00000040  2**2";
    assert_eq!(code(one), Ok(255));
    for listing in ["", "text", "1", "  1  00000010 0000000000000000"] {
        assert_eq!(code(listing), Ok(0));
    }
    for listing in ["  1 .text.call", "  1 .text.call x TEXT"] {
        let why = "the section .text.call has no size";
        assert_eq!(code(listing), Err(why.into()));
    }
}
