#!/usr/bin/env python3
"""cut.py SRC OUT: copies the analyser's Rust from SRC/src/silk to OUT/silk and
cuts out the SIMD branches and what leans on files that are not there.

Nothing of the source is typed here but the short texts by which a place is
found. Every cut states how often its place occurs; any other count is an error.
"""
import os
import re
import sys

FILES = ["define", "macros", "sort", "tables", "resampler", "sigproc_fix", "pitch_analysis"]

X86 = '#[cfg(target_arch = "x86_64")]'
ARM = '#[cfg(target_arch = "aarch64")]'
NOT_ARM = '#[cfg(not(target_arch = "aarch64"))]'
NEITHER = '#[cfg(not(any(target_arch = "aarch64", target_arch = "x86_64")))]'


def die(why):
    sys.exit("cut.py: " + why)


def skip(text, at):
    """The place after a comment or a string literal at `at`, or `at` itself."""
    if text.startswith("//", at):
        end = text.find("\n", at)
        return len(text) if end < 0 else end
    if text[at] == '"':
        end = at + 1
        while text[end] != '"':
            end += 2 if text[end] == "\\" else 1
        return end + 1
    return at


def block_end(text, at):
    """The place after the bracket that closes the one at `at`."""
    depth = 0
    while at < len(text):
        past = skip(text, at)
        if past != at:
            at = past
            continue
        if text[at] in "{([":
            depth += 1
        elif text[at] in "})]":
            depth -= 1
            if depth == 0:
                return at + 1
        at += 1
    die("a bracket is not closed")


def first_of(text, at, marks):
    """The first place from `at` on, outside comments, strings and round
    brackets, that holds one of `marks`."""
    while at < len(text):
        past = skip(text, at)
        if past != at:
            at = past
        elif text[at] in marks:
            return at
        elif text[at] in "([":
            at = block_end(text, at)
        else:
            at += 1
    die("none of %s found" % marks)


def thing(text, at):
    """A statement or item that starts at `at` (after its cfg): its end, and the
    blocks of an if with an else."""
    stop = first_of(text, at, "{;")
    if text[stop] == ";":
        return stop + 1, []
    blocks = []
    while True:
        end = block_end(text, stop)
        blocks.append((stop, end))
        after = re.match(r"\s*else\b\s*", text[end:])
        if not after:
            return end, blocks
        stop = end + after.end()


def line_start(text, at):
    return text.rfind("\n", 0, at) + 1


def line_end(text, at):
    end = text.find("\n", at)
    return len(text) if end < 0 else end + 1


def places(text, mark, want, name):
    found = [m.start() for m in re.finditer(re.escape(mark), text)]
    if len(found) != want:
        die("%s: %r occurs %d times, not %d" % (name, mark, len(found), want))
    return found


def cut_things(text, mark, want, name, keep_else=0):
    """Cuts `want` statements or items marked by `mark`; of an `if .. else`,
    `keep_else` of them, the else block stays."""
    kept = 0
    for at in reversed(places(text, mark, want, name)):
        start = line_start(text, at)
        body = at + len(mark)
        end, blocks = thing(text, body)
        rest = ""
        if len(blocks) == 2:
            kept += 1
            rest = text[start:at] + text[blocks[1][0]:blocks[1][1]] + "\n"
        elif len(blocks) > 2:
            die("%s: an if with more than one else" % name)
        text = text[:start] + rest + text[line_end(text, end):]
    if kept != keep_else:
        die("%s: %d else blocks kept, not %d" % (name, kept, keep_else))
    return text


def cut_marks(text, mark, want, name):
    """Cuts the mark alone; what it marks stays and is compiled always."""
    for at in reversed(places(text, mark, want, name)):
        text = text[:line_start(text, at)] + text[line_end(text, at):]
    return text


def cut_line(text, line, name):
    at = places(text, line + "\n", 1, name)[0]
    return text[:at] + text[at + len(line) + 1:]


def cut_function(text, head, name):
    at = places(text, head, 1, name)[0]
    end = block_end(text, first_of(text, at, "{"))
    return text[:line_start(text, at)] + text[line_end(text, end):]


def bare(text):
    """The text without its comments."""
    out, at = [], 0
    while at < len(text):
        past = skip(text, at)
        if past != at:
            if text[at] == '"':
                out.append(text[at:past])
            at = past
        else:
            out.append(text[at])
            at += 1
    return "".join(out)


def sigproc(text, name):
    # The scalar energy stands twice, in the x86 else and for other machines:
    # the else stays, the other goes, and they must be the same.
    else_at = text.index("else {", text.index("silk_sum_sqr_shift_avx2(")) + len("else ")
    other_at = text.index("{", places(text, NEITHER, 1, name)[0])
    one = text[else_at:block_end(text, else_at)]
    other = text[other_at:block_end(text, other_at)]
    if one.split() != other.split():
        die("%s: the two scalar forms of silk_sum_sqr_shift differ" % name)
    text = cut_things(text, NEITHER, 1, name)
    text = cut_things(text, ARM, 6, name)
    text = cut_things(text, X86, 7, name, keep_else=1)
    return cut_marks(text, NOT_ARM, 2, name)


def assembly(text, name):
    """The two ends of silk_pitch_analysis_core that make lags from a pair, as
    functions of their own: the same lines, cut out by their text."""
    st3_loop = "            let lag_cb_ptr_st3_k: &[i8] ="
    at = places(text, st3_loop, 1, name)[0]
    head = line_start(text, at - 1)
    if text[head:at] != "        for k in 0..nb_subfr {\n":
        die("%s: the last loop of stage 3 has another head" % name)
    stop = text.find("    } else {\n", text.index("*contour_index = cb_i_max as i8;\n", at))
    if stop < 0:
        die("%s: no else after stage 3" % name)
    st3 = text[head:stop]
    st2_at = stop + len("    } else {\n")
    st2 = text[st2_at:text.index("    }\n\n    0\n}\n", st2_at)]
    for body, want in ((st3, "lag_new"), (st2, "MIN_LAG_8KHZ")):
        for need in (want, "silk_limit(", "*lag_index =", "*contour_index ="):
            if need not in body:
                die("%s: the cut-out assembly lacks %r" % (name, need))
        if body.count("for k in") != 1 or len(body.split("\n")) > 22:
            die("%s: the cut-out assembly is not one loop" % name)
    out = "pitch_out: &mut [i32], lag_index: &mut i16, contour_index: &mut i8"
    return (
        "\npub fn assembly_stage3(%s, lag_new: i32, cb_i_max: usize, min_lag: usize, "
        "fs_khz: i32, nb_subfr: usize) {\n%s}\n" % (out, st3)
        + "\npub fn assembly_stage2(%s, lag: i32, cb_i_max: usize, nb_subfr: usize) {\n%s}\n"
        % (out, st2)
    )


def threshold(text, name):
    """The lines of silk_find_pitch_lags_fix that find the second threshold, as a
    function of their own: the same lines, cut out by their text. The four numbers
    are arguments, so the path to where the wrapper keeps three of them goes."""
    at = places(text, "let mut thrhld_q13: i32 =", 1, name)[0]
    last = places(text, "thrhld_q13 = silk_sat16(thrhld_q13);", 1, name)[0]
    body = text[line_start(text, at):line_end(text, last)]
    path = "ps_enc.s_cmn."
    places(body, path, 3, "the threshold's lines")
    body = body.replace(path, "")
    for need in ("pitch_lpc_order as i32", "speech_activity_q8)", "prev_signal_type >>", "input_tilt_q15)"):
        places(body, need, 1, "the threshold's lines")
    if len(body.split("\n")) > 11 or body.count(";") != 6 or "ps_enc" in body:
        die("%s: the threshold's lines are not six steps" % name)
    return (
        "\npub fn find_threshold(pitch_lpc_order: usize, speech_activity_q8: i32, prev_signal_type: i32, "
        "input_tilt_q15: i32) -> i32 {\n%s        thrhld_q13\n}\n" % body
    )


# Where the searching copy of the analyser tells what it sees: the text of a
# line, how often it occurs, what is added before (or after) it.
PROBES = [
    ("before", "    let mut c = [0i16; PE_MAX_NB_SUBFR * CSTRIDE_4KHZ];", 1,
     "probe::signals(shift, frame_8khz, &frame_4khz[..frame_length_4khz]);"),
    ("before", "        c[k * CSTRIDE_4KHZ] = silk_div32_varq(cross_corr, normalizer, 14) as i16;", 1,
     "probe::divisor1(cross_corr, normalizer);"),
    ("before", "            c[k * CSTRIDE_4KHZ + (d - MIN_LAG_4KHZ)] =", 1,
     "probe::divisor1(cross_corr, normalizer);"),
    ("before", "            c_combined[i - MIN_LAG_4KHZ] = sum as i16;", 2,
     "probe::combined(sum);"),
    ("before", "    if (c_combined[0] as i32) < 3277 {", 1,
     "probe::ranked(&c_combined[..length_d_srch]);"),
    ("before", "            length_d_srch = i;", 1,
     "probe::stopped(c_combined[i] as i32, threshold);"),
    ("before", "    let mut c_8khz = [0i16; PE_MAX_NB_SUBFR * CSTRIDE_8KHZ];", 1,
     "probe::listed(length_d_srch);"),
    ("before", "        if cc_max_new_b > cc_max_b\n", 1,
     "probe::scored2(d, cc_max_new_b, cc_max_b, cc0_max_new, "
     "silk_smulbb(nb_subfr as i32, search_thres2_q13));"),
    ("before", "                    if cc_max_new > cc_max && (d + lag_cb_ptr_st3_0[j] as i32) <=", 1,
     "probe::scored3(cc_max_new, cc_max, d + lag_cb_ptr_st3_0[j] as i32, max_lag as i32);"),
    ("after", "            pitch_out[k] = lag_new + lag_cb_ptr_st3_k[cb_i_max] as i32;\n", 1,
     "probe::unheld(pitch_out[k], min_lag as i32, max_lag as i32);"),
    ("after", "            pitch_out[k] = lag + lag_cb_ptr_curr[cb_i_max] as i32;\n", 1,
     "probe::unheld(pitch_out[k], min_lag as i32, max_lag as i32);"),
]


def with_probes(text, name):
    for side, anchor, want, call in PROBES:
        for at in reversed(places(text, anchor, want, name)):
            if side == "after":
                at += len(anchor)
            text = text[:at] + call + "\n" + text[at:]
    return "use crate::probe;\n" + text


def main():
    if len(sys.argv) != 3:
        die("use: cut.py SRC OUT")
    src, out = sys.argv[1], sys.argv[2]
    texts = {}
    for name in FILES:
        path = os.path.join(src, "src", "silk", name + ".rs")
        if not os.path.isfile(path):
            die("no file " + path)
        texts[name] = open(path, encoding="utf8").read()
    texts["resampler"] = cut_things(texts["resampler"], X86, 2, "resampler")
    texts["sigproc_fix"] = sigproc(texts["sigproc_fix"], "sigproc_fix")
    core = texts["pitch_analysis"]
    core = cut_line(core, "use crate::silk::structs::*;", "pitch_analysis")
    found = threshold(core, "pitch_analysis")
    core = cut_function(core, "pub fn silk_find_pitch_lags_fix(", "pitch_analysis")
    ends = assembly(core, "pitch_analysis")
    texts["pitch_analysis"] = core + ends + found
    # A second copy, told apart by its name, that reports on its way; it is used
    # to search for frames and never to answer.
    texts["pitch_probe"] = with_probes(core, "pitch_probe")
    os.makedirs(os.path.join(out, "silk"), exist_ok=True)
    for name, text in texts.items():
        left = bare(text)
        for mark in (r"_mm\w*", r"\w*is_x86_feature_detected", r"\w*avx\w*", r"\w*sse\d\w*",
                     r"\w*neon\w*", r"#\[target_feature", r"std::arch", r"unsafe \w+", r"#\[cfg\([^\n]*"):
            for word in re.findall(mark, left):
                die("%s: %r is still there" % (name, word))
        with open(os.path.join(out, "silk", name + ".rs"), "w", encoding="utf8") as f:
            f.write(text)
    with open(os.path.join(out, "silk", "mod.rs"), "w", encoding="utf8") as f:
        f.write("".join("pub mod %s;\n" % n for n in texts))


main()
