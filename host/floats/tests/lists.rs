//! What counts is found and what does not is passed over, on what a disassembler would print.

use floats::{Found, report};

/// One function of this format, with these lines, and these symbols before it.
fn listing(format: &str, symbols: &[&str], instructions: &[&str]) -> String {
    let symbols: String = symbols.iter().map(|symbol| format!("0000000000000000 {symbol}\n")).collect();
    let lines: String = instructions.iter().map(|line| format!("               \t{line}\n")).collect();
    format!(
        "\nlib.a(one.o):\tfile format {format}\n\nSYMBOL TABLE:\n{symbols}\nDisassembly of section .text:\n\n<one>:\n{lines}"
    )
}

/// As what a line of x86-64 counts.
fn counts_as(line: &str) -> Option<&'static str> {
    let mut found = report(&listing("elf64-x86-64", &[], &[line])).found;
    match found.pop() {
        Some(Found::Instruction { function, counts_as, .. }) if function == "one" && found.is_empty() => {
            Some(counts_as)
        }
        None => None,
        other => panic!("{line}: {other:?}"),
    }
}

#[test]
fn what_counts_is_found() {
    let counted = [
        ("arithmetic", "addsd\t%xmm1, %xmm0"),
        ("arithmetic", "subps\t(%rip), %xmm0           # 0x10 <one+0x10>"),
        ("arithmetic", "sqrtss\t%xmm0, %xmm0"),
        ("arithmetic", "divpd\t%xmm2, %xmm0"),
        ("comparison", "ucomisd\t%xmm0, %xmm1"),
        ("comparison", "comiss\t(%rdi), %xmm1"),
        ("comparison", "cmpltsd\t%xmm0, %xmm1"),
        ("comparison", "cmpneqps\t%xmm0, %xmm1"),
        ("conversion", "cvttsd2si\t(%rdi), %rax"),
        ("conversion", "cvtsi2sdq\t%rax, %xmm0"),
        ("conversion", "cvtps2pd\t%xmm0, %xmm0"),
        ("x87", "fldl\t-8(%rsp)"),
        ("x87", "fistpll\t-8(%rsp)"),
        ("x87", "fxch\t%st(1)"),
        ("floating", "ldmxcsr\t-4(%rsp)"),
        ("floating", "pfadd\t%mm0, %mm1"),
        ("on no list", "vaddsd\t%xmm0, %xmm1, %xmm2"),
        ("on no list", "aesenc\t%xmm0, %xmm1"),
    ];
    for (kind, line) in counted {
        assert_eq!(counts_as(line), Some(kind), "{line}");
    }
}

#[test]
fn what_does_not_count_is_passed_over() {
    let passed_over = [
        "movsd\t(%rdi), %xmm0           # xmm0 = mem[0],zero",
        "movups\t%xmm0, 16(%rdi)",
        "movq\t%rax, %xmm0",
        "pcmpeqb\t%xmm0, %xmm1",
        "paddq\t%xmm0, %xmm1",
        "pmovmskb\t%xmm1, %eax",
        "xorps\t%xmm0, %xmm0",
        "andnpd\t%xmm0, %xmm1",
        "unpcklpd\t%xmm0, %xmm1",
        "shufps\t$136, %xmm0, %xmm1",
        "addq\t%rax, %rbx",
        "cmpsb\t%es:(%rdi), (%rsi)",
        "cmpq\t$65536, %rax           # imm = 0x10000",
        "rep\t\tstosq\t%rax, %es:(%rdi)",
        "pushq\t%rbp",
        "retq",
        "                                # xmm0 = xmm0[1,1,2,3]",
    ];
    for line in passed_over {
        assert_eq!(counts_as(line), None, "{line}");
    }
}

#[test]
fn a_word_before_an_instruction_hides_nothing() {
    assert_eq!(counts_as("data16\t\taddsd\t%xmm1, %xmm0"), Some("arithmetic"));
}

#[test]
fn what_could_not_be_read_does_not_pass() {
    for line in ["<unknown>", "(bad)", ".byte\t0x0f", "0:       \taddsd\t%xmm1, %xmm0"] {
        assert_eq!(counts_as(line), Some("not read"), "{line}");
    }
}

#[test]
fn without_floats_no_floating_instruction_passes() {
    let found = |line| !report(&listing("elf64-littleriscv", &[], &[line])).found.is_empty();
    assert!(found("fadd.d\tfa0, fa0, fa1") && found("fld\tfa0, 0(a0)") && found("c.fld\tfa0, 0(a0)"));
    assert!(!found("fence\trw, rw") && !found("add\ta0, a0, a1"));
}

#[test]
fn routines_of_software_floats_are_found() {
    let names = "__adddf3 __subsf3 __muldf3 __divtf3 __negdf2 __powidf2 __eqdf2 __unorddf2 __cmpdf2 __fixdfdi __fixunsdfdi \
                 __fixunssfti __floatdidf __floatundidf __floatsisf __extendsfdf2 __extenddftf2 __truncdfhf2 __muldc3";
    for name in names.split_whitespace() {
        for symbol in
            [format!("        *UND*\t0000000000000000 {name}"), format!("g     F .text\t0000000000000010 {name}")]
        {
            let found = report(&listing("elf64-x86-64", &[&symbol], &[])).found;
            assert_eq!(found, [Found::SoftwareFloat(name.to_string())], "{symbol}");
        }
    }
}

#[test]
fn other_routines_are_taken_where_they_work_on_bytes() {
    let asked = |name: &str| {
        let symbol = format!("        *UND*\t0000000000000000 {name}");
        report(&listing("elf64-x86-64", &[&symbol], &[]))
    };
    for name in ["memcpy", "memmove", "memset", "memcmp", "bcmp"] {
        let report = asked(name);
        assert!(report.found.is_empty() && report.asks_for.contains(name));
    }
    for name in ["trunc", "ldexp", "__udivti3", "__aeabi_d2iz", "__divmoddi4"] {
        assert_eq!(asked(name).found, [Found::Routine(name.to_string())]);
    }
    // what a library brings along itself is judged by its instructions
    assert!(report(&listing("elf64-x86-64", &["g     F .text\t0000000000000010 sdd_open"], &[])).found.is_empty());
}

#[test]
fn a_format_without_a_list_is_refused() {
    let found = report(&listing("elf64-littleaarch64", &[], &["fadd\td0, d0, d1"])).found;
    assert_eq!(found, [Found::Format("elf64-littleaarch64".to_string())]);
}

#[test]
fn functions_and_instructions_are_counted() {
    let one = listing("elf64-x86-64", &[], &["retq", "retq"]);
    let two = [one, "\n<.L0 >:\n               \tud2\n".to_string()].concat();
    let report = report(&two);
    assert_eq!((report.functions.len(), report.instructions), (1, 3));
}
