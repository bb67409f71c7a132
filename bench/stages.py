"""Millions of instructions by stage of decoding, in `vp8` beside libvpx: for decode_speed --stages. Not proved.

Callgrind counts them. libvpx is Debian's source, built with symbols. A row of callgrind belongs to the first stage
whose words its file or function has. What memcpy copies for output is output, as what `fwrite` copies is."""
import collections
import os
import pathlib
import re
import subprocess
import textwrap

STAGES = ("tokens", "loop filter", "modes, vectors, header, row loop", "inter prediction", "intra prediction",
          "residue", "memset, memcpy", "output", "else", "all")
TOKENS, FILTER, MODES, INTER, INTRA, RESIDUE, MEMORY, OUTPUT, ELSE, ALL = STAGES
COPIES = r"memset|memcpy|memmove"
# The C library's code for every x86-64 processor, which no threshold and no feature of the machine changes. With others
# callgrind counts an instruction for each byte that is cleared.
PLAIN = "glibc.cpu.hwcaps=-AVX2,-AVX512VL,-AVX512F,-ERMS,-FSRM,-AVX_Fast_Unaligned_Load"
# What the C library and the loader do. A copy inside `fwrite` is output too.
COMMON = (
    (OUTPUT, r"fwrite|fileops|genops|_IO_|libioP|iofwrite|mempcpy|__write"),
    (MEMORY, COPIES),
    (ELSE, r"/elf/|malloc|/stdlib/|/string/|strlen|strcmp|getenv"),
)
LIBVPX = (
    (TOKENS, r"detokenize|GetCoeffs|decode_mb_tokens|bool_decoder_fill|reset_mb_tokens"),
    (FILTER, r"loop_?filter"),
    (RESIDUE, r"idct|dequant|walsh"),
    (INTRA, r"reconintra|intrapred|intra4x4|intra_prediction"),
    (INTER, r"subpixel|sixtap|bilinear|reconinter|build_inter|extend|recon_(mmx|sse2)|copy_mem"),
    (MODES, r"vp8/|onyxd|dboolhuff|treereader"),
    (OUTPUT, r"vpxdec|ivfdec|md5|tools_common|vpx_image|vpx_decoder"),
)
# Crates of the program, and modules of vp_recon. Nearly all bytes that the bool decoder loads are those of tokens, as of
# libvpx's `bool_decoder_fill`.
OURS = (
    (TOKENS, r"vp_tokens|vp_bool.*number_of"),
    (FILTER, r"vp_loop"),
    (INTER, r"vp_inter|vp_recon.*(inter|moved|predict_(macroblock|luma|chroma|four|quarters))"),
    (INTRA, r"vp_intra|vp_recon.*intra"),
    (RESIDUE, r"vp_transform|vp_quant|vp_recon"),
    (MODES, r"vp_modes|vp_motion|vp_head|vp_bool|vp_tree|vp_decode|vp_refs"),
    (OUTPUT, r"vp_"),
)


def run(words, folder):
    """Runs a command, and stops with its last words if it fails."""
    environment = {**os.environ, "GLIBC_TUNABLES": PLAIN}
    done = subprocess.run(words, cwd=folder, env=environment, capture_output=True, text=True)
    if done.returncode:
        raise SystemExit(f"{' '.join(map(str, words))}: {(done.stdout + done.stderr)[-600:]}")


def build_libvpx(folder):
    """Builds vpxdec with symbols from Debian's source, with VP8's decoder alone; a minute."""
    run(["apt-get", "source", "libvpx"], folder)
    source, built = next(it for it in folder.glob("libvpx-*") if it.is_dir()), folder / "built"
    built.mkdir()
    without = ["vp9", "vp8-encoder", "unit-tests", "docs", "webm-io"]
    run([source / "configure", "--enable-pic", "--enable-debug", *(f"--disable-{it}" for it in without)], built)
    run(["make"], built)
    return built


def copied_for_output(profile, rules):
    """The instructions of memcpy and memset that are called by functions of the stage output."""
    names = {}
    pattern = next(words for stage, words in rules if stage == OUTPUT)
    before = [words for stage, words in rules if stage != OUTPUT]
    total, caller, callee, is_call = 0, "", "", False
    for line in profile.read_text().splitlines():
        named = re.match(r"(c?)fn=\((\d+)\)(?: (.*))?", line)
        if named:
            name = names.setdefault(named[2], named[3])
            caller, callee = (caller, name) if named[1] else (name, callee)
        elif is_call and re.search(COPIES, callee):
            is_output = re.search(pattern, caller) and not any(re.search(words, caller) for words in before)
            total += int(line.split()[-1]) if is_output else 0
        is_call = line.startswith("calls=")
    return total


def stages(command, rules, folder):
    """The instructions of a run by stage."""
    profile = pathlib.Path(folder, "callgrind")
    run(["valgrind", "--tool=callgrind", f"--callgrind-out-file={profile}", *command], folder)
    annotate = ["callgrind_annotate", "--threshold=100", "--auto=no", profile]
    said = subprocess.run(annotate, capture_output=True, text=True)
    sums = collections.Counter()
    for line in said.stdout.splitlines():
        found = re.match(r"\s*([\d,]+) \([ \d.]+%\)\s+(.*)", line)
        if found:
            # A type parameter, as that of the filter of rows, says nothing of the stage.
            count, name = int(found[1].replace(",", "")), re.sub(r"::<[^<>]*>(?= \[|$)", "", found[2])
            every = ((ALL, "^PROGRAM TOTALS"), *COMMON, *rules)
            sums[next((stage for stage, words in every if re.search(words, name)), ELSE)] += count
    copied = copied_for_output(profile, rules)
    sums[OUTPUT] += copied
    sums[MEMORY] -= copied
    return sums


def table(streams, libvpx, folder):
    """Prints the table, for streams with a name, the command of vp8 and that of vpxdec, and returns the lines of its sums
    as docs/PERFORMANCE.md has them. The folder libvpx has a vpxdec with symbols."""
    found = {name: (stages(ours, OURS, folder), stages([libvpx / "vpxdec", *theirs[1:]], LIBVPX, folder))
             for name, ours, theirs in streams}
    print("| stage | " + " | ".join(f"{name}: vp8 | libvpx" for name in found) + " | ratio of the sums |")
    print("|---" * (2 * len(found) + 2) + "|")
    lines = ["| stage | vp8 | libvpx | ratio |", "|---|---|---|---|"]
    for stage in STAGES:
        cells = [f"{counts[stage] / 1e6:.0f}" for pair in found.values() for counts in pair]
        ours, theirs = (sum(pair[k][stage] for pair in found.values()) for k in (0, 1))
        ratio = f"{ours / max(theirs, 1):.2f}"
        print(f"| {stage} | " + " | ".join(cells) + f" | {ratio} |")
        if stage != ELSE:
            lines.append(f"| {stage} | {ours / 1e6:,.0f} | {theirs / 1e6:,.0f} | {ratio} |")
    each = ", ".join(f"{name} {ours[ALL] / theirs[ALL]:.2f}" for name, (ours, theirs) in found.items())
    return [*lines, "", *textwrap.wrap(f"By stream, all stages: {each}.", 120)]
