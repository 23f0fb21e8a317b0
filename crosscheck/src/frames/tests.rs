//! Small listings, and what they come to.

use super::Bounds;
use crate::calls::Call;

/// Functions by their names and instructions, each function in a section of its own, an instruction at every eighth
/// byte. An arrow stands before the symbol that the linker is to put in.
type Code<'c> = &'c [(&'c str, &'c str)];

fn listing(code: Code) -> String {
    let mut text = String::new();
    for (name, instructions) in code {
        text += &format!("\nDisassembly of section .text.{name}:\n\n0000000000000000 <{name}>:\n");
        let mut relocations =
            format!("\nRELOCATION RECORDS FOR [.text.{name}]:\nOFFSET           TYPE              VALUE\n");
        for (at, instruction) in instructions.split("; ").enumerate() {
            let (shown, symbol) = instruction.split_once(" -> ").unwrap_or((instruction, ""));
            text += &format!("  {:x}:\t{shown}\n", 8 * at);
            if !symbol.is_empty() {
                relocations += &format!("{:016x} R_X86_64_PLT32    {symbol}-0x0000000000000004\n", 8 * at + 1);
            }
        }
        text += &relocations;
    }
    text
}

/// The path of the first public call, or why there is none.
fn path_of(text: &str) -> Result<String, String> {
    let bounds = Bounds::read(text)?;
    let steps: Vec<String> = bounds.paths[0].iter().map(|(name, bytes)| format!("{name} {bytes}")).collect();
    Ok(steps.join(", "))
}

fn comes_to(code: Code, expected: &str) {
    assert_eq!(path_of(&listing(code)).as_deref(), Ok(expected), "{code:?}");
}

/// A public call of these instructions has this path.
fn takes(instructions: &str, expected: &str) {
    comes_to(&[("rulebook_f", instructions)], expected);
}

/// A public call of these instructions is refused, with this place and reason.
fn refused(instructions: &str, why: &str) {
    let path = path_of(&listing(&[("rulebook_f", instructions)]));
    assert_eq!(path, Err(format!("rulebook_f, {why}")), "{instructions}");
}

const PRINTED: &str = "In archive some/where.a:

object.o:     file format elf64-x86-64


Disassembly of section .text.one:

0000000000000000 <one>:
   0:\tpush   %rbx
   1:\tlea    0x0(%rip),%rax        # 8 <one+0x8>
   8:\tcall   d <one+0xd>
   d:\tpop    %rbx
   e:\trepz ret
  10:\tdata16 cs nopw 0x0(%rax,%rax,1)

Disassembly of section .text.rulebook_check_program:

0000000000000000 <rulebook_check_program>:
   0:\tsub    $0x18,%rsp
   4:\tcall   9 <rulebook_check_program+0x9>
   9:\tadd    $0x18,%rsp
   d:\tje     13 <rulebook_check_program+0x13>
  13:\tret

Disassembly of section .text.rulebook_check_theory:

0000000000000000 <rulebook_check_theory>:
   0:\tret
In archive some/where.a:

object.o:     file format elf64-x86-64

RELOCATION RECORDS FOR [.text.one]:
OFFSET           TYPE              VALUE
0000000000000004 R_X86_64_PC32     .rodata-0x0000000000000004
0000000000000009 R_X86_64_PLT32    memset-0x0000000000000004


RELOCATION RECORDS FOR [.text.rulebook_check_program]:
OFFSET           TYPE              VALUE
0000000000000005 R_X86_64_PLT32    .text.one-0x0000000000000004
000000000000000f R_X86_64_PLT32    memcpy-0x0000000000000004
";

#[test]
fn shows_the_calls_in_the_order_of_the_header() {
    let expected = "check_theory           8  rulebook_check_theory 8
check_program         56  rulebook_check_program 32, one 16, memset 8
outside the archive: memcpy, memset
";
    assert_eq!(Bounds::read(PRINTED).map(|bounds| bounds.to_string()).as_deref(), Ok(expected));
}

#[test]
fn knows_which_calls_are_there() {
    let calls = Bounds::read(PRINTED).map(|bounds| Call::ALL.into_iter().filter(|call| bounds.cover(*call)).collect());
    assert_eq!(calls, Ok(vec![Call::CheckTheory, Call::CheckProgram]));
}

#[test]
fn shows_that_nothing_is_outside() {
    let text = listing(&[("rulebook_f", "ret")]);
    let expected = "f                      8  rulebook_f 8\noutside the archive: nothing\n";
    assert_eq!(Bounds::read(&text).map(|bounds| bounds.to_string()).as_deref(), Ok(expected));
}

#[test]
fn takes_the_deepest_branch_and_not_the_sum() {
    takes(
        "je 28; push %rbx; sub $0x20,%rsp; add $0x20,%rsp; jmp 38; push %rbx; nop; pop %rbx; ret; nopw 0x0(%rax)",
        "rulebook_f 48",
    );
    takes("push $0x5; push 0x8(%rax); sub $0x70,%rsp; nop; add $0x80,%rsp; ret", "rulebook_f 136");
    takes("add $0xffffffffffffff80,%rsp; nop; sub $0xffffffffffffff80,%rsp; ret", "rulebook_f 136");
}

#[test]
fn counts_from_where_the_call_stands() {
    let deep = ("deep", "sub $0x40,%rsp; add $0x40,%rsp; ret");
    let early = "push %rbx; call 10 -> .text.deep; sub $0x30,%rsp; add $0x30,%rsp; pop %rbx; ret";
    comes_to(&[("rulebook_f", early), deep], "rulebook_f 16, deep 72");
    let shallow = "push %rbx; call 10 -> deep; sub $0x60,%rsp; add $0x60,%rsp; pop %rbx; ret";
    comes_to(&[("rulebook_f", shallow), deep], "rulebook_f 112");
    let instead = "push %rbx; pop %rbx; jne 18 -> .text.deep; ret";
    comes_to(&[("rulebook_f", instead), deep], "rulebook_f 8, deep 64");
    comes_to(&[("rulebook_f", "push %rbx; jmp 10 -> deep"), deep], "rulebook_f 16, deep 64");
    comes_to(&[("rulebook_f", "call 8 -> deep; call 10 -> deep; ret"), deep], "rulebook_f 8, deep 72");
    let both = "push %rbx; call 10 -> middle; call 18 -> memset; pop %rbx; ret";
    let middle = ("middle", "push %rax; call 10 -> deep; pop %rax; ret");
    comes_to(&[("rulebook_f", both), middle, deep], "rulebook_f 16, middle 16, deep 72");
}

#[test]
fn counts_what_is_used_below_the_pointer() {
    takes("push %rbx; mov %rax,-0x18(%rsp); pop %rbx; ret", "rulebook_f 40");
    takes("push %rbx; mov 0x8(%rsp),%rax; pop %rbx; ret", "rulebook_f 16");
    takes("mov %al,0x8(%rsp,%rcx,1); ret", "rulebook_f 136");
    takes("mov %rsp,%rdi; push %rbx; pop %rbx; ret", "rulebook_f 144");
    takes("call 8 -> g; mov %al,0x8(%rsp,%rcx,1); ret", "rulebook_f 8, g 8");
    takes("call 8 -> g; mov %al,-0x8(%rsp,%rcx,1); ret", "rulebook_f 136");
}

/// Two tables in one section, the second at its eighth byte.
const TABLES: &str = "RELOCATION RECORDS FOR [.text.more]:
0000000000000003 R_X86_64_PC32     .rodata.rulebook_f-0x0000000000000004
000000000000000b R_X86_64_PC32     .rodata.rulebook_f+0x0000000000000004
RELOCATION RECORDS FOR [.rodata.rulebook_f]:
0000000000000000 R_X86_64_PC32     .text.rulebook_f+0x0000000000000018
0000000000000004 R_X86_64_PC32     .text.rulebook_f+0x000000000000002c
0000000000000008 R_X86_64_PC32     .text.rulebook_f+0x0000000000000048
000000000000000c R_X86_64_64       .text.rulebook_f
";

#[test]
fn follows_jump_tables() {
    let code = "push %rbx; jne 38; jmp *%rax; pop %rbx; ret; sub $0x8,%rsp; jmp 50; nop; notrack jmp *%rcx; \
                sub $0x8,%rsp; ud2";
    let with = |code: &str, tables: &str| path_of(&(listing(&[("rulebook_f", code)]) + tables));
    assert_eq!(with(code, TABLES), Ok("rulebook_f 24".into()));
    let into_another = TABLES.replace("18\n", "19\n");
    assert_eq!(with(code, &into_another), Err("rulebook_f, 19: there is no instruction".into()));
    let one_less = TABLES.replace("0000000000000008 R_X86_64_PC32", "0000000000000008 R_X86_64_64");
    assert_eq!(with(code, &one_less), Err("rulebook_f, 48: no path that is followed comes here".into()));
    let deeper = code.replace("nop;", "push %rax;");
    assert_eq!(with(&deeper, TABLES), Err("rulebook_f, 48: reached with two depths of %rsp".into()));
}

/// Functions that share a section, and their tables one.
const SHARED: &str = "Disassembly of section .text:
0000000000000000 <rulebook_f>:
   0:\tcall   5 <rulebook_f+0x5>
   5:\tjmp    *%rax
   8:\tnopl   0x0(%rax)
   c:\tret
0000000000000010 <g>:
  10:\tpush   %rbx
  11:\tjmp    *%rax
  13:\tpop    %rbx
  14:\tret
RELOCATION RECORDS FOR [.text]:
0000000000000001 R_X86_64_PLT32    .text+0x000000000000000c
0000000000000021 R_X86_64_PLT32    .text-0x0000000000000004
0000000000000031 R_X86_64_PC32     .rodata-0x0000000000000004
0000000000000039 R_X86_64_PC32     .rodata
RELOCATION RECORDS FOR [.rodata]:
0000000000000000 R_X86_64_PC32     .text+0x000000000000000c
0000000000000004 R_X86_64_PC32     .text+0x0000000000000013
";

#[test]
fn tells_functions_of_a_section_apart() {
    assert_eq!(path_of(SHARED), Ok("rulebook_f 8, g 16".into()));
}

#[test]
fn refuses_flow_that_it_cannot_follow() {
    refused("call *%rax; ret", "0: an indirect jump or call: *%rax");
    refused("call *0x0(%rip) -> g; ret", "0: an indirect jump or call: *0x0(%rip)");
    refused("jmp *0x0(%rip) -> g", "0: an indirect jump or call: *0x0(%rip)");
    refused("jmp *%rax", "0: an indirect jump without a table");
    refused("jmp 4", "0: leads to where no function begins");
    refused("call 8; ret", "0: leads to where no function begins");
    refused("je 100 -> .rodata; ret", "0: leads to where no function begins");
    refused("jmp x; ret", "0: a jump or call to a place that is not known: x");
    let beside = listing(&[("rulebook_f", "call 8 -> g; ret")]).replace("g-0x", "g+0x");
    assert_eq!(path_of(&beside), Err("rulebook_f, 0: a jump or call to a place that is not known: 8".into()));
    refused("push %rbx", "0: goes on past its end");
    refused("jmp 10; inc %rax; ret", "8: no path that is followed comes here");
    refused("push %rbx; jne 0; pop %rbx; ret", "0: reached with two depths of %rsp");
    refused("push %rbx; ret", "8: returns with 8 bytes on the stack");
}

#[test]
fn refuses_recursion() {
    let itself = listing(&[("rulebook_f", "call 8 -> rulebook_f; ret")]);
    assert_eq!(path_of(&itself), Err("recursion: rulebook_f, rulebook_f".into()));
    let others = listing(&[("rulebook_f", "call 8 -> g; ret"), ("g", "jmp 8 -> .text.h"), ("h", "jmp 8 -> g")]);
    assert_eq!(path_of(&others), Err("recursion: rulebook_f, g, h, g".into()));
}

#[test]
fn refuses_what_moves_the_pointer_in_another_way() {
    let named = "mov %rax,%rsp; mov %rbp,%rsp; xchg %rsp,%rax; xchg %rax,%rsp; mov $0x8,%spl; add $0x8,%esp; \
                 sub %rax,%rsp; add (%rax),%rsp; and $0x10,%rsp; and $0xffffffffffffffe1,%rsp; lea 0x8(%rax),%rsp; \
                 lea (%rsp,%rax,1),%rsp; lea -0x70(%rsp),%rsp; and $0xffffffffffffffe0,%rsp; inc %rsp; mov %rax,%ss:-0x8(%rsp)";
    let unnamed = "pop %rsp; pop %ax; pop (%rax); push %ax; push %r8w; push %fs; pushw $0x8; pushf ; popf ; leave ; \
                   enter $0x8,$0x0; ret $0x8; lret ; iretq ; int $0x80; syscall ; call ; (bad) ; .byte 0x6";
    for other in named.split("; ").chain(unnamed.split("; ")) {
        refused(&format!("sub $0x40,%rsp; {other}; add $0x40,%rsp; ret"), &format!("8: not known: {other}"));
    }
    refused("pop %rbx; ret", "0: not known: pop %rbx");
    takes("popcnt %rax,%rax; ret", "rulebook_f 8");
}

#[test]
fn refuses_text_that_it_does_not_understand() {
    let refusal = |more: String| path_of(&(listing(&[("rulebook_f", "ret")]) + &more));
    for line in ["\t...", "  8:\trex.W call 8", "  8:\tcs", "  8:\tjne,pn 8", "  x:\tret", "0 g:", "error: something"] {
        assert_eq!(refusal(line.into()), Err(format!("not understood: {line}")));
    }
    let before =
        "a.o:     file format elf64-x86-64\n0000000000000000 <g>:\n  0:\tret\n0000000000000000 R_X86_64_PC32 i\n";
    let objects = "b.o:     file format elf64-x86-64";
    for line in [objects, "0000000000000000 <g>:", "  0:\tnop", "0000000000000000 R_X86_64_PC32 h"] {
        let expected = format!("of more than one object, or out of place: {line}");
        assert_eq!(refusal(before.to_string() + line), Err(expected));
    }
    assert_eq!(path_of("  0:\tret"), Err("of more than one object, or out of place:   0:\tret".into()));
    assert_eq!(path_of(""), Err("no function of the archive has a name that begins with rulebook_".into()));
}
