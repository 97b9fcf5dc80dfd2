//! Tests of what serves machines that the kit does not compile for: layouts, the shim, the module, a board's library.

use crate::layout::{self, Layout};
use crate::library::Library;
use crate::tests::{export, read};
use crate::stacks::{told_frames, Graph};
use crate::{c, module, object, rust, shim, watched};

const STEP: &str = "mortisevane_step(kept: Kept, row: &mut [u32], most: usize) -> Answer";

/// A library with a struct that has every width, one that holds it, two of few numbers, and three exports.
fn library() -> Library {
    let kept = "\n// What is kept.\n#[repr(C)]\npub struct Kept {\n    pub letter: u8,\n    pub mask: u16,\n    \
        pub count: usize,\n    pub sums: [u32; 3],\n}\n";
    let answer = "\n// An answer.\n#[repr(C)]\npub struct Answer {\n    pub number: u32,\n    pub kept: Kept,\n}\n";
    let small = "\n// A number.\n#[repr(C)]\npub struct One {\n    pub bits: u32,\n}\n\n\
        // Where it is.\n#[repr(C)]\npub struct Found {\n    pub number: u32,\n    pub place: usize,\n}\n";
    let exports = [STEP, "mortisevane_place(kept: Kept) -> usize", "mortisevane_found(one: One, letter: u8) -> Found"];
    let steps = format!("// Steps.\n{kept}{answer}{small}{}", exports.map(export).concat());
    read("host", &[("host/src/lib.rt", "// All.\nmod steps;\n"), ("host/src/steps.rt", &steps)]).unwrap()
}

#[test]
fn a_number_stands_at_a_multiple_of_its_size() {
    let layouts = layout::of(&library());
    assert_eq!(layouts["Kept"], Layout { places: vec![0, 2, 8, 16], bytes: 32, aligned: 8 });
    assert_eq!(layouts["Answer"], Layout { places: vec![0, 8], bytes: 40, aligned: 8 });
}

#[test]
fn a_length_in_a_struct_has_a_width_of_its_own() {
    let header = c::header(&library());
    for line in [
        "    mortisevane_size count;\n",
        "MORTISEVANE_LARGE(kept, 32);\nMORTISEVANE_PLACED(kept, letter, 0);\nMORTISEVANE_PLACED(kept, mask, 2);\n",
        "MORTISEVANE_PLACED(kept, count, 8);\nMORTISEVANE_PLACED(kept, sums, 16);\n",
        "uint32_t *row, size_t row_length, size_t most);\n",
        "size_t mortisevane_place(struct mortisevane_kept kept);\n",
    ] {
        assert!(header.contains(line), "{line} is not in {header}");
    }
    let declarations = rust::declarations(&library());
    for line in [
        "    pub count: Size,\n",
        "const _: () = assert!(size_of::<Kept>() == 32);\n",
        "const _: () = assert!(offset_of!(Kept, sums) == 16);\n",
        "row: *mut u32, row_length: usize, most: usize) -> Answer;\n",
    ] {
        assert!(declarations.contains(line), "{line} is not in {declarations}");
    }
}

#[test]
fn the_shim_hands_structs_and_slices_by_a_pointer() {
    let text = shim::source(&library());
    let step = "void inner_step(struct mortisevane_answer *, struct mortisevane_kept *, const struct lent *, uint64_t) \
        __asm__(\"host::steps::mortisevane_step::by_pointers\");\n\n\
        struct mortisevane_answer mortisevane_step(struct mortisevane_kept kept, uint32_t *row, size_t row_length, \
        size_t most)\n{\n    struct lent lent_row = { row, row_length };\n    struct mortisevane_answer answer;\n    \
        inner_step(&answer, &kept, &lent_row, most);\n    return answer;\n}\n";
    assert!(text.contains(step), "{text}");
    let place = "size_t mortisevane_place(struct mortisevane_kept kept)\n{\n    return (size_t)inner_place(&kept);\n}\n";
    assert!(text.contains(place), "{text}");
}

#[test]
fn every_field_and_all_lent_memory_is_seen_of_a_call() {
    let text = watched::source(&library());
    let kept = "static void see_kept(const struct mortisevane_kept *seen)\n{\n    see(seen->letter);\n    \
        see(seen->mask);\n    see(seen->count);\n    for (int place = 0; place < 3; place++)\n        \
        see(seen->sums[place]);\n}\n";
    let answer = "    see(seen->number);\n    see_kept(&seen->kept);\n}\n";
    let step = "{\n    watch_inputs(WATCHED_step);\n    see_kept(&kept);\n    \
        see_lent(ROW_step_row, row, row_length, sizeof *row);\n    see(most);\n    PAINT_STACK();\n    \
        struct mortisevane_answer answer = __real_mortisevane_step(kept, row, row_length, most);\n    \
        watch_answer(DEEPEST_STACK());\n    see_answer(&answer);\n    see_row(row, row_length * sizeof *row);\n    \
        watch_ends();\n    return answer;\n}\n";
    let names = "    \"mortisevane_step\",\n    \"mortisevane_place\",\n    \"mortisevane_found\",\n";
    for part in [kept, answer, step, names, "    \"row of mortisevane_step\",\n"] {
        assert!(text.contains(part), "{part} is not in {text}");
    }
}

/// The module of that library, as the kit writes one.
const MODULE: &str = "\
target datalayout = \"e-m:e-p:32:32-Fi8-i64:64-v128:64:128-a:0:32-n32-S64\"
define internal void @\"host::steps::mortisevane_step\"(ptr noundef %a0, ptr noundef %a1, ptr noundef %a2, i64 noundef %a3, i64 noundef %a4) #0 {
start:
  call void @llvm.memmove.p0.p0.i64(ptr %a0, ptr %a1, i64 32, i1 false)
  ret void
}
define internal noundef i64 @\"host::steps::mortisevane_place\"(ptr noundef %a0) #0 {
start:
  ret i64 0
}
define internal noundef { i32, i64 } @\"host::steps::mortisevane_found\"(i32 noundef %a0, i8 noundef %a1) #0 {
start:
  ret { i32, i64 } zeroinitializer
}
define noundef ptr @mortisevane_step(ptr noundef %a0, ptr noundef byval([32 x i8]) align 8 %a1, ptr noundef %a2, i64 noundef %a3, i64 noundef %a4) #0 {
start:
  %r0 = alloca [16 x i8], align 8
  %r1 = icmp eq ptr %a2, null
  %r2 = zext i1 %r1 to i64
  %r3 = mul i64 %r2, 4096
  %r4 = getelementptr i8, ptr %a2, i64 %r3
  store ptr %r4, ptr %r0, align 8
  %r5 = getelementptr i8, ptr %r0, i64 8
  store i64 %a3, ptr %r5, align 8
  %r6 = load ptr, ptr %r0, align 1
  %r7 = getelementptr i8, ptr %r0, i64 8
  %r8 = load i64, ptr %r7, align 1
  call void @\"host::steps::mortisevane_step\"(ptr %a0, ptr %a1, ptr %r6, i64 %r8, i64 %a4)
  ret ptr %a0
}
define noundef i64 @mortisevane_place(ptr noundef byval([32 x i8]) align 8 %a0) #0 {
start:
  %r0 = call i64 @\"host::steps::mortisevane_place\"(ptr %a0)
  ret i64 %r0
}
define { i64, i64 } @mortisevane_found(i32 %a0, i8 noundef %a1) #0 {
start:
  %r0 = alloca [16 x i8], align 8
  %r1 = alloca [4 x i8], align 4
  store i32 %a0, ptr %r1, align 4
  %r2 = load i32, ptr %r1, align 1
  %r3 = call { i32, i64 } @\"host::steps::mortisevane_found\"(i32 %r2, i8 %a1)
  %r4 = extractvalue { i32, i64 } %r3, 0
  %r5 = extractvalue { i32, i64 } %r3, 1
  store i32 %r4, ptr %r0, align 1
  %r6 = getelementptr i8, ptr %r0, i64 8
  store i64 %r5, ptr %r6, align 1
  %r7 = load { i64, i64 }, ptr %r0, align 8
  ret { i64, i64 } %r7
}
declare void @llvm.memmove.p0.p0.i64(ptr, ptr, i64, i1) #1
attributes #0 = { nounwind \"probe-stack\"=\"inline-asm\" \"stack-probe-size\"=\"3072\" \"target-cpu\"=\"x86-64-v2\" }
attributes #1 = { nounwind }
";

/// What is written beside it for the shim.
const BY_POINTERS: &str = "
define hidden void @\"host::steps::mortisevane_found::by_pointers\"(ptr %to, ptr %a0, i8 zeroext %a1) nounwind {
start:
  %a0.at.0 = getelementptr i8, ptr %a0, i64 0
  %a0.0 = load i32, ptr %a0.at.0, align 4
  %answer = call { i32, i64 } @\"host::steps::mortisevane_found\"(i32 %a0.0, i8 %a1)
  %answer.0 = extractvalue { i32, i64 } %answer, 0
  %to.0 = getelementptr i8, ptr %to, i64 0
  store i32 %answer.0, ptr %to.0, align 4
  %answer.8 = extractvalue { i32, i64 } %answer, 1
  %to.8 = getelementptr i8, ptr %to, i64 8
  store i64 %answer.8, ptr %to.8, align 8
  ret void
}

define hidden i64 @\"host::steps::mortisevane_place::by_pointers\"(ptr %a0) nounwind {
start:
  %answer = call i64 @\"host::steps::mortisevane_place\"(ptr %a0)
  ret i64 %answer
}

define hidden void @\"host::steps::mortisevane_step::by_pointers\"(ptr %to, ptr %a0, ptr %a1, i64 %a2) nounwind {
start:
  %a1.at.0 = getelementptr i8, ptr %a1, i64 0
  %a1.0 = load ptr, ptr %a1.at.0, align 8
  %a1.0.null = icmp eq ptr %a1.0, null
  %a1.0.one = zext i1 %a1.0.null to i64
  %a1.0.more = mul i64 %a1.0.one, 4096
  %a1.0.kept = getelementptr i8, ptr %a1.0, i64 %a1.0.more
  %a1.at.8 = getelementptr i8, ptr %a1, i64 8
  %a1.8 = load i64, ptr %a1.at.8, align 8
  call void @\"host::steps::mortisevane_step\"(ptr %to, ptr %a0, ptr %a1.0.kept, i64 %a1.8, i64 %a2)
  ret void
}
";

#[test]
fn beside_a_module_is_what_the_shim_calls() {
    let visible = module::visible(&library(), MODULE).unwrap();
    let machine = " \"probe-stack\"=\"inline-asm\" \"stack-probe-size\"=\"3072\" \"target-cpu\"=\"x86-64-v2\"";
    assert!(MODULE.contains(machine));
    assert_eq!(visible, MODULE.replace(machine, "") + BY_POINTERS);
}

/// Why the module is refused once something in it is replaced.
fn refused(old: &str, new: &str) -> String {
    assert!(MODULE.contains(old), "{old} is not in the module");
    module::visible(&library(), &MODULE.replacen(old, new, 1)).expect_err("the module is refused")
}

/// The number of the line of the module that has a text.
fn line(text: &str) -> usize {
    MODULE.lines().position(|line| line.contains(text)).expect(text) + 1
}

#[test]
fn a_module_that_would_be_wrong_on_another_machine_is_refused() {
    let ret = "  ret void\n";
    let at = line("ret void");
    let more = |line: &str| refused(ret, &format!("  {line}\n{ret}"));
    assert_eq!(more("%r9 = inttoptr i64 %a3 to ptr"), format!("line {at} of the module makes a pointer of a number"));
    assert_eq!(more("%r9 = ptrtoint ptr %a0 to i64"), format!("line {at} of the module makes a number of a pointer"));
    assert_eq!(more("%r9 = icmp eq ptr %a0, %a1"), format!("line {at} of the module compares pointers"));
    assert_eq!(more("%r9 = icmp eq ptr %a0, null"), format!("line {at} of the module compares pointers"));
    let own = format!("line {at} of the module has a machine's own instructions");
    assert_eq!(more("call void asm sideeffect \"nop\", \"\"()"), own);
    let moved = format!("line {} of the module moves a number of bytes that is no constant", line("i64 32, i1"));
    assert_eq!(refused("i64 32, i1", "i64 %a3, i1"), moved);
    let declares = line("declare");
    let outside = format!("line {declares} of the module needs a function from outside");
    assert_eq!(refused("declare void @llvm.memmove.p0.p0.i64(", "declare void @abort("), outside);
    let memory = format!("line {declares} of the module declares memory of the library's own");
    assert_eq!(refused("declare", "@kept = internal global i32 0\ndeclare"), memory);
    let unknown = format!(
        "line {} of the module has attributes of a machine that are not known: attributes #0 = {{ nounwind \
        \"target-features\"=\"+sse\" }}",
        declares + 1
    );
    assert_eq!(refused("\"target-cpu\"=\"x86-64-v2\"", "\"target-features\"=\"+sse\""), unknown);
    assert_eq!(refused("-i64:64", "-i64:32"), "line 1 of the module places numbers of 64 bits otherwise");
    assert_eq!(refused("\"e-m", "\"E-m"), "line 1 of the module has the lowest byte of a number last");
    let table = "@static.0 = private unnamed_addr constant [2 x i8] c\"\\00\\01\", align 2\ndeclare";
    assert!(module::visible(&library(), &MODULE.replacen("declare", table, 1)).is_ok());
}

#[test]
fn a_module_whose_functions_are_not_as_the_shim_calls_them_is_refused() {
    let place = "@\"host::steps::mortisevane_place\"(ptr noundef %a0)";
    let none = "the module has 0 functions host::steps::mortisevane_place for the export mortisevane_place, and not one";
    assert_eq!(refused(place, "@\"host::mortisevane_place\"(ptr noundef %a0)"), none);
    let inner = "define internal noundef i64 @\"host::steps::mortisevane_place\"(ptr noundef %a0) #0 {\n";
    let twice = none.replace(" 0 ", " 2 ");
    assert_eq!(refused(inner, &format!("{inner}}}\n{inner}")), twice);
    let words = format!(
        "line {} of the module has host::steps::mortisevane_place with i64 i64, and not with i64 ptr",
        line(inner.trim())
    );
    assert_eq!(refused(place, "@\"host::steps::mortisevane_place\"(i64 noundef %a0)"), words);
    let pair = "define internal noundef { i32, i64 } @";
    let answers = format!(
        "line {} of the module has host::steps::mortisevane_found with {{ i32, i32 }} i32 i8, and not with \
        {{ i32, i64 }} i32 i8",
        line(pair)
    );
    assert_eq!(refused(pair, "define internal noundef { i32, i32 } @"), answers);
    let exported = line("i64 @mortisevane_place(");
    let stranger = format!("line {exported} of the module exports mortisevane_other, which the header has not");
    assert_eq!(refused("i64 @mortisevane_place(", "i64 @mortisevane_other("), stranger);
}

#[test]
fn a_module_whose_thunks_hand_on_otherwise_is_refused() {
    let of = |name: &str| line(&format!(" @{name}("));
    let step = |told: &str| {
        let right = "[ptr, ptr to 32, ptr at 0 of 16, i64 at 8 of 16, i64] for []";
        format!("line {} of the module has mortisevane_step with {told}, and not with {right}", of("mortisevane_step"))
    };
    let slice = step("[ptr, ptr to 32, ptr at 0 of 16, i64 at 4 of 16, i64] for []");
    assert_eq!(refused("  %r7 = getelementptr i8, ptr %r0, i64 8\n", "  %r7 = getelementptr i8, ptr %r0, i64 4\n"), slice);
    let swapped = step("[ptr, ptr to 32, ptr at 0 of 16, i64, i64 at 8 of 16] for []");
    assert_eq!(refused("ptr %r6, i64 %r8, i64 %a4)", "ptr %r6, i64 %a4, i64 %r8)"), swapped);
    let null = format!(
        "line {} of the module has mortisevane_step with 1 slices, of which 0 are asked for null and 1 moved from there",
        of("mortisevane_step")
    );
    assert_eq!(refused("icmp eq ptr %a2, null", "icmp eq i64 %a3, 0"), null);
    let size = format!(
        "line {} of the module has mortisevane_place with [ptr to 24] for [], and not with [ptr to 32] for []",
        of("mortisevane_place")
    );
    assert_eq!(refused("(ptr noundef byval([32 x i8]) align 8 %a0)", "(ptr noundef byval([24 x i8]) align 8 %a0)"), size);
    let find = |told: &str| {
        let right = "[i32 at 0 of 4, i8] for [i32 at 0 of 16, i64 at 8 of 16]";
        format!("line {} of the module has mortisevane_found with {told}, and not with {right}", of("mortisevane_found"))
    };
    let place = find("[i32 at 0 of 4, i8] for [i32 at 0 of 16, i64 at 4 of 16]");
    assert_eq!(refused("  %r6 = getelementptr i8, ptr %r0, i64 8\n", "  %r6 = getelementptr i8, ptr %r0, i64 4\n"), place);
    let bytes = find("[i32 at 0 of 8, i8] for [i32 at 0 of 16, i64 at 8 of 16]");
    assert_eq!(refused("%r1 = alloca [4 x i8], align 4", "%r1 = alloca [8 x i8], align 4"), bytes);
}

/// A section of a small object file: its kind, its marks and how many bytes it has.
type Section = (u32, u32, u32);

/// An archive with one object file of 32 bits: sections of bytes that are not there, and symbols, each with whether it
/// is needed.
fn archive(sections: &[Section], symbols: &[(&str, bool)]) -> Vec<u8> {
    let mut names = vec![0];
    let mut table = vec![0; 16];
    for (name, is_needed) in symbols {
        table.extend(u32::try_from(names.len()).unwrap().to_le_bytes());
        table.extend([0; 8]);
        table.extend([0x10, 0, u8::from(!is_needed), 0]);
        names.extend(name.bytes().chain([0]));
    }
    let mut file = b"\x7FELF\x01\x01".to_vec();
    file.resize(52, 0);
    let names_start = file.len();
    file.extend(&names);
    let table_start = file.len();
    file.extend(&table);
    let start = file.len();
    let row = |kind: u32, marks: u32, place: usize, bytes: usize, goes_with: u32| {
        let numbers = [0, kind, marks, 0, place as u32, bytes as u32, goes_with, 0, 0, 0];
        numbers.iter().flat_map(|number| number.to_le_bytes()).collect::<Vec<u8>>()
    };
    file.extend(row(0, 0, 0, 0, 0));
    file.extend(row(3, 0, names_start, names.len(), 0));
    file.extend(row(2, 0, table_start, table.len(), 1));
    for (kind, marks, bytes) in sections {
        file.extend(row(*kind, *marks, 0, *bytes as usize, 0));
    }
    file[0x20..0x24].copy_from_slice(&u32::try_from(start).unwrap().to_le_bytes());
    file[0x2E..0x30].copy_from_slice(&40u16.to_le_bytes());
    file[0x30..0x32].copy_from_slice(&u16::try_from(3 + sections.len()).unwrap().to_le_bytes());
    let mut archive = b"!<arch>\n".to_vec();
    archive.extend(format!("{:<48}{:<10}`\n", "mortisevane.o/", file.len()).bytes());
    archive.extend(&file);
    archive
}

const CODE: Section = (1, 2 | 4, 100);
const CONSTANTS: Section = (1, 2, 30);
const GIVEN: [(&str, bool); 3] = [("mortisevane_step", false), ("mortisevane_place", false), ("mortisevane_found", false)];

#[test]
fn a_board_s_library_is_code_and_constants_alone() {
    let unwinding = (0x7000_0001, 2, 8);
    let symbols = [&GIVEN[..], &[("__aeabi_uldivmod", true)]].concat();
    let found = object::judged(&library(), &archive(&[CODE, CONSTANTS, unwinding, (1, 0, 5)], &symbols)).unwrap();
    assert_eq!((found.code, found.constants, found.variables), (100, 30, 0));
    assert!(found.needs.iter().eq(["__aeabi_uldivmod"]));
    let told = |sections: &[Section], symbols: &[(&str, bool)]| {
        object::judged(&library(), &archive(sections, symbols)).expect_err("the library is refused")
    };
    let data = (1, 2 | 1, 4);
    let cleared = (8, 2 | 1, 8);
    assert_eq!(told(&[CODE, data, cleared], &GIVEN), "it has 12 bytes of variables, and must have none");
    let abort = [&GIVEN[..], &[("abort", true)]].concat();
    assert_eq!(told(&[CODE], &abort), "it needs abort, which is more than the named few");
    let lacks = "of the header's functions it lacks [mortisevane_place], and gives besides [mortisevane_more]";
    assert_eq!(told(&[CODE], &[GIVEN[0], GIVEN[2], ("mortisevane_more", false)]), lacks);
}

#[test]
fn what_is_no_archive_of_one_object_is_refused() {
    let told = |bytes: &[u8]| object::judged(&library(), bytes).expect_err("the archive is refused");
    assert_eq!(told(b"library"), "it is no archive");
    assert_eq!(told(b"!<arch>\n"), "it has no member");
    let whole = archive(&[CODE], &GIVEN);
    assert_eq!(told(&whole[..whole.len() - 1]), "it is cut short");
    let twice = [&whole[..], &whole[8..]].concat();
    assert_eq!(told(&twice), "it has several members");
    let other = [&whole[..8 + 60 + 5], &[2], &whole[8 + 60 + 6..]].concat();
    assert_eq!(told(&other), "it is no little-endian ELF file");
}

#[test]
fn the_deepest_way_of_calls_decides_the_stack() {
    let mut graph = Graph {
        frames: [(1, 100), (2, 20), (3, 30), (4, 8)].into(),
        calls: [(1, [2, 3].into()), (2, [4].into())].into(),
    };
    let deepest = |graph: &Graph| graph.deepest(1, &mut Vec::new());
    assert_eq!(deepest(&graph), Ok(130));
    graph.frames.insert(4, 16);
    assert_eq!(deepest(&graph), Ok(136));
    graph.calls.insert(3, [5].into());
    assert_eq!(deepest(&graph), Err("a function is called whose frame is not told".to_string()));
    graph.calls.insert(3, [1].into());
    assert_eq!(deepest(&graph), Err("a function calls itself".to_string()));
}

#[test]
fn a_frame_is_told_by_the_name_of_its_function() {
    let told = told_frames("shim.c:576:mortisevane_step\t1320\tstatic\nshim.c:call::memory::sound\t432\tstatic\n");
    assert_eq!(told, Ok([("mortisevane_step", 1320), ("call::memory::sound", 432)].into()));
    let grows = told_frames("shim.c:5:mortisevane_step\t16\tdynamic\n");
    assert_eq!(grows, Err("the frame of a function has no one size: shim.c:5:mortisevane_step\t16\tdynamic".to_string()));
}
