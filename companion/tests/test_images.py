"""listing, trace, exposure, campaign and certificate on a small program, against what hardcc prints of it."""
import csv
import re
import shutil
import subprocess

import pytest

pytest.importorskip("capstone")
pytest.importorskip("elftools")
from view import image as images  # noqa: E402
from view import listing, names, structure, tool  # noqa: E402

SOURCE = """int total;
int table[3];
void add(int word) { total += word; table[1] = total; }
int half(int word) { return word / 2; }
int main(void) {
    int a = in_word();
    if (a) add(half(a)); else out_word(2);
    out_word(total);
    return table[1];
}
"""
COMMANDS = ["compile", "compile-split"]


@pytest.fixture(scope="module")
def folder(tmp_path_factory, hardcc):
    """A folder with the source, an image by each command, and an input."""
    made = tmp_path_factory.mktemp("images")
    (made / "a.c").write_text(SOURCE)
    (made / "in").write_text("9\n")
    (made / "none").write_text("")
    for command in COMMANDS:
        subprocess.run([hardcc, command, "a.c", command], cwd=made, check=True, capture_output=True)
    return made


@pytest.fixture(scope="module", params=COMMANDS)
def image(request, folder):
    """An image that was read, with the text that hardcc lists."""
    return images.Image(str(folder / request.param))


@pytest.fixture(scope="module")
def parts(image):
    """Its structure."""
    return structure.Structure(image)


def test_lists_are_those_of_hardcc(image):
    windows, aliases = image.lines[-1].split()[1::2]
    assert (image.window_count, len(image.aliases)) == (int(windows), int(aliases))


# What the disassembler calls by a short name, and the instructions that this can be.
ALIASES = {
    "nop": ("sll",), "move": ("addu", "or"), "b": ("beq",), "beqz": ("beq",), "bnez": ("bne",), "negu": ("subu",), "not": ("nor",),
}


def test_words_are_those_of_objdump(image):
    """Address and bits of each word; another program reads them."""
    found = shutil.which("mips-linux-gnu-objdump")
    if found is None:
        pytest.skip("mips-linux-gnu-objdump is not installed")
    told = subprocess.run([found, "-d", "-z", "-M", "no-aliases", image.path], capture_output=True, text=True, check=True).stdout
    rows = re.findall(r"^\s*([0-9a-f]+):\s+([0-9a-f]{8})\s+(\S+)", told, re.M)
    assert [(int(a, 16), int(w, 16)) for a, w, _ in rows] == [(word.address, word.bits) for word in image.words]
    assert all(name in ALIASES.get(word.name, (word.name,)) for (_, _, name), word in zip(rows, image.words))


def test_every_start_has_a_head(parts):
    assert parts.heads == set(parts.starts)


def test_every_window_has_a_use(parts):
    assert structure.OTHER not in parts.uses.values() and set(parts.uses.values()) <= set(structure.USES)


def test_windows_of_branches_stand_before_them(image, parts):
    for (address, register), use in parts.uses.items():
        if use == structure.BRANCH:
            assert any(image.at[address + 4 * k].name in structure.CONDITIONAL and register in image.at[address + 4 * k].read for k in range(4))


def test_aliases_lead_from_start_to_start(image, parts):
    assert {address for pair in image.aliases for address in pair} <= set(parts.starts)


def test_names_follow_the_calls(folder, parts):
    found, remark = names.of_image(parts, str(folder / "a.c"))
    assert remark == names.GUESSED and sorted(found.values()) == ["(start)", "add", "half", "main"]
    assert names.shown(found, parts.image.entry) == "(start)" and "main?" in {names.shown(found, address) for address in found}


def test_no_names_of_another_source(tmp_path, parts):
    (tmp_path / "b.c").write_text("int main(void) { return 0; }\n")
    found, remark = names.of_image(parts, str(tmp_path / "b.c"))
    assert remark == names.UNMATCHED and set(found.values()) == {names.START}


def test_no_names_without_source(parts):
    assert names.of_image(parts, None) == ({parts.image.entry: names.START}, names.UNNAMED)


@pytest.fixture(scope="module", params=COMMANDS)
def text(request, folder):
    """The listing as text."""
    return list(listing.text_lines(listing.Listing(str(folder / request.param), str(folder / "a.c"))))


def test_listing_begins_with_what_it_is(text):
    assert "proves nothing" in text[0]


def test_listing_within_120_columns(text):
    assert max(map(len, text)) <= 120


def test_listing_has_every_word_once(folder, text):
    rows = [line for line in text if re.match(r"[0-9a-f]{8} [0-9a-f]{8} ", line)]
    addresses = [int(row[:8], 16) for row in rows]
    assert addresses == sorted(set(addresses)) and addresses[0] == 0x00400000


def test_listing_has_both_streams(text):
    rows = [line.split("|") for line in text if re.match(r"[0-9a-f]{8} [0-9a-f]{8} ", line)]
    assert any(row[0][18:].strip() for row in rows) and any(row[1].strip() for row in rows)
    for row in rows:
        assert not re.search(r"\$(1[4-9]|2[0-3]|30|25)\b", row[0][18:]) and not re.search(r"\$([4-9]|1[0-3]|29|31)\b", row[1])


def test_listing_shows_each_window(folder, image):
    told = "\n".join(listing.text_lines(listing.Listing(image.path, None)))
    assert sum(len(re.findall(r"\$\d+ (?:store|branch|return|service|use)\b", line)) for line in told.splitlines()[4:]) == image.window_count


def test_listing_as_html(view, folder, tmp_path):
    told = view("listing", folder / "compile", "--source", folder / "a.c", "--html", "out.html")
    page = (tmp_path / "out.html").read_text()
    assert "proves nothing" in told.splitlines()[0] and page.startswith("<!DOCTYPE html>")
    ids = set(re.findall(r'id="(a[0-9a-f]{8})"', page))
    assert set(re.findall(r'href="#(a[0-9a-f]{8})"', page)) <= ids
    assert page.count("<tr") == page.count("</tr>") and "add?" in page


def test_listing_of_no_image(view, folder):
    view("listing", folder / "a.c", status=1)


def test_disassembly_of_what_is_no_instruction():
    words = images.disassembled(bytes.fromhex("00000000ffffffff0000000c"), 0x00400000)
    assert [(word.address, word.name) for word in words] == [(0x00400000, "nop"), (0x00400004, ".word"), (0x00400008, "syscall")]


@pytest.mark.parametrize("bits, text, written, read", [
    ("27bdfff0", "addiu $29, $29, -0x10", 29, {29}), ("afbf0000", "sw $31, ($29)", None, {29, 31}), ("8fd90004", "lw $25, 4($30)", 25, {30}),
    ("03e00008", "jr $31", None, {31}), ("0000004d", "break 1", None, set()), ("00c7001a", "div $0, $6, $7", None, {6, 7}),
    ("00c70018", "mult $6, $7", None, {6, 7}), ("00003012", "mflo $6", 6, set()), ("0c10001b", "jal 0x40006c", 31, set()),
    ("10d00002", "beq $6, $16, 0x40000c", None, {6, 16}), ("00c02021", "move $4, $6", 4, {6})])
def test_word(bits, text, written, read):
    word, = images.disassembled(bytes.fromhex(bits), 0x00400000)
    assert (word.text, word.written, word.read) == (text, written, read)


@pytest.mark.parametrize("register, role", [(4, "master"), (13, "master"), (14, "shadow"), (23, "shadow"), (25, "shadow"), (29, "master"), (30, "shadow"),
                                            (31, "master"), (1, "signature"), (24, "signature"), (28, "signature"), (2, "number"), (26, "none"), (0, "none")])
def test_role(register, role):
    assert images.role(register) == role


def steps_of(folder, command, path=None):
    """The number of steps that the audit has."""
    return int(tool.lines("audit", folder / command, path or folder / "in", 100000)[1].split()[1])


@pytest.mark.parametrize("command", COMMANDS)
def test_trace(view, folder, command):
    pytest.importorskip("unicorn")
    steps = steps_of(folder, command)
    told = view("trace", folder / command, folder / "in", "--to", steps + 5, "--source", folder / "a.c").splitlines()
    rows = [line for line in told if re.match(r"\d+ +[0-9a-f]{8} ", line)]
    assert "proves nothing" in told[0] and len(rows) == steps and told[-1] == f"after step {steps - 1}: exit 4"
    assert any("add?" in row and "$31 = 0x0040" in row for row in rows if "lw $31" in row)


def test_trace_of_a_range(view, folder):
    pytest.importorskip("unicorn")
    told = view("trace", folder / "compile", folder / "in", "--from", 7, "--to", 11).splitlines()
    assert [line.split()[0] for line in told[3:-1]] == ["7", "8", "9", "10"] and told[-1] == "after step 10: going"


def test_trace_starves(view, folder):
    pytest.importorskip("unicorn")
    assert view("trace", folder / "compile", folder / "none", "--to", 1000).endswith("starved\n")


def test_a_step_found_by_trace_is_the_one_that_is_flipped(view, folder, tmp_path):
    """The step that puts out a word, as the trace has it, flipped by hardcc in the window of $4: another word comes out."""
    pytest.importorskip("unicorn")
    told = view("trace", folder / "compile", folder / "in", "--to", 10000, "--source", folder / "a.c", "--function", "main")
    step = next(int(line.split()[0]) for line in told.splitlines() if "syscall" in line and "window" in line and "$4" in line)
    (tmp_path / "fault").write_text(f"flip {step} 4 1\n")
    assert tool.lines("fault", folder / "compile", folder / "in", 10000, tmp_path / "fault") == ["6", "exit 4"]


@pytest.mark.parametrize("command", COMMANDS)
def test_exposure_is_what_a_campaign_leaves_out(view, folder, tmp_path, command):
    """Over a run of some fifty steps, so that the campaign is short."""
    pytest.importorskip("unicorn")
    (tmp_path / "b.c").write_text("int main(void) { out_word(in_word()); return 0; }\n")
    tool.lines(command, tmp_path / "b.c", tmp_path / command)
    steps = steps_of(tmp_path, command, folder / "in")
    told = view("exposure", command, folder / "in", "--source", "b.c", "--csv", "e.csv", "--html", "e.html")
    listed, pairs = map(int, re.search(r"^(\d+) of (\d+) pairs", told, re.M).groups())
    counted = dict(line.split() for line in tool.lines("campaign", tmp_path / command, folder / "in", steps + 20, 0, steps))
    assert (listed, pairs) == (int(counted["windowed"]), 31 * steps) and int(counted["silent"]) == 0
    with open(tmp_path / "e.csv", newline="") as file:
        rows = list(csv.DictReader(file))
    assert sum(int(row["listed"]) for row in rows) == listed and sum(int(row["steps"]) for row in rows) == steps
    assert max(map(len, told.splitlines()[2:])) <= 120 and (tmp_path / "e.html").read_text().count('class="bar"') == len(rows)


def without_window(data, wanted):
    """The bytes of an image that lists one window less, laid out by docs/IMAGE.md."""
    word = lambda at: int.from_bytes(data[at:at + 4], "big")
    table = word(32)
    put = lambda out, at, value: out.__setitem__(slice(at, at + 4), value.to_bytes(4, "big"))
    offset, size = word(table + 3 * 40 + 16), word(table + 3 * 40 + 20)
    place = next(at for at in range(offset, offset + size, 8) if (word(at), word(at + 4)) == wanted)
    out = bytearray(data)
    for at, value in [(32, table - 8), (table + 3 * 40 + 20, size - 8), (table + 4 * 40 + 16, word(table + 4 * 40 + 16) - 8), (table + 5 * 40 + 16, word(table + 5 * 40 + 16) - 8)]:
        put(out, at, value)
    return bytes(out[:place] + out[place + 8:])


@pytest.fixture(scope="module")
def faked(folder):
    """An image that hides the window of $4 at the last output."""
    image = images.Image(str(folder / "compile"))
    address = max(a for a in image.windows if image.at[a].name == "syscall" and 4 in image.windows[a] and a > 0x00400070)
    (folder / "faked").write_bytes(without_window((folder / "compile").read_bytes(), (address, 4)))
    return folder / "faked"


needs_parallel = pytest.mark.skipif(shutil.which("parallel") is None, reason="GNU parallel is not installed")


@needs_parallel
def test_campaign(view, folder, tmp_path):
    told = view("campaign", folder / "compile", folder / "in", "--jobs", 1, "--to", 6, "--folder", "kept", "--report", "c.html", "--sample", 0)
    lines = told.splitlines()
    assert "proves nothing" in lines[0] and sum(int(line.split()[1]) for line in lines[2:7]) == 31 * 6
    direct = tool.lines("campaign", folder / "compile", folder / "in", int(re.search(r"runs of (\d+)", told).group(1)), 0, 6)
    assert lines[2:7] == direct
    assert "Outcomes by step" in (tmp_path / "c.html").read_text()
    log = (tmp_path / "kept" / "joblog").read_text()
    again = view("campaign", folder / "compile", folder / "in", "--jobs", 1, "--to", 6, "--folder", "kept")
    assert again.splitlines()[2:7] == direct and (tmp_path / "kept" / "joblog").read_text() == log
    view("campaign", folder / "compile", folder / "none", "--jobs", 1, "--to", 6, "--folder", "kept", status=1)


@needs_parallel
def test_silent_flips_are_replayed(view, folder, faked):
    pytest.importorskip("unicorn")
    found = images.Image(str(faked))
    steps = steps_of(folder, "compile")
    told = view("trace", faked, folder / "in", "--to", steps).splitlines()
    hidden = [address for address in images.Image(str(folder / "compile")).windows if 4 in images.Image(str(folder / "compile")).windows[address]
              and 4 not in found.windows.get(address, [])]
    step = next(int(line.split()[0]) for line in told if f" {hidden[0]:08x} " in line)
    told = view("campaign", faked, folder / "in", "--jobs", 1, "--from", step, "--to", step + 1, "--folder", "hidden", "--report", "h.html", "--sample", 1)
    assert "silent 1" in told and f"flip {step} 4 {(step + 4) % 32}" in told


def test_certificate(view, folder):
    told = view("certificate", folder / "a.c", folder / "compile", folder / "in")
    assert "proves nothing" in told.splitlines()[0] and "the image is the same byte by byte" in told and "audit yes" in told
    assert len(told.splitlines()) <= 60 and told.count("SHA-256") == 4


def test_certificate_of_another_source(view, folder, tmp_path):
    (tmp_path / "b.c").write_text("int main(void) { return 0; }\n")
    assert "NOT made of this source" in view("certificate", tmp_path / "b.c", folder / "compile", folder / "in", status=1)


def test_no_hardcc(view, folder, monkeypatch):
    monkeypatch.setenv("HARDCC", "/nowhere/hardcc")
    view("listing", folder / "compile", status=1)


def test_usage(view):
    view("nothing", status=2)
    assert "proves nothing" in view("--help")
