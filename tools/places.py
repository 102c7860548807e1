"""Counts the places of the design pass in the crates' src/, at a commit or in the tree.

    python3 tools/places.py            the tree as it is
    python3 tools/places.py COMMIT     a commit
    python3 tools/places.py -v [..]    with each place

What is looked for is looked for over whole files. docs/DESIGN-PASS.md says what the points are.
"""
import re
import subprocess
import sys

# A point, a kind of place, and what is looked for. At a pattern that begins with "twins:" one match alone is none.
PLACES = [
    (1, "a flag with a value beside it", r"\bshared: u32"),
    (1, "a bool that says whether there is a value", r"Result<bool"),
    (1, "a fault handed on as an Option", r"-> Option<\(usize, RuleFault\)>|let Some\(_\) ="),
    (1, "a number in place of nothing", r"\(\) -> u8"),
    (1, "numbers for kinds", r">> 28|run_end\([\w.]+, [\w +]+, \d, \d\)|(?m:^\s+\d(?: \| \d)* (?:if rest < \d+ )?=> )"),
    (1, "numbers that a table is looked up by", r"(?m:^\s+(?:Item|RuleFault|Cause)::\w+(?:\(_\))? => \d+,)"),
    (1, "an Option or a Result taken apart to be handed on", r"None => None|Err\(_\) => (?:None|false)|else \{\s*return None;|Some\(found\) => (?:Some\(found\)|\{\s*return)|(?:if let Err\(\w+\) = [^{]+|Err\(\w+\) => )\{\s*return Err"),
    (2, "a loop of one's own for `contains` or `any`", r"twins:fn (?:contains|is_among|is_struck|shares_any|shares_with|has_anchor)\b[^{]*(?:\{[^\n]*\}\n[^{]*)*\{\n\s+for "),
    (2, "whether a link anchors a variable", r"twins:fn is_anchor\b"),
    (2, "whether a link touches a thing", r"twins:fn is_touched"),
    (2, "a spare thing", r"twins:fn spare_(?:thing|after)\b"),
    (2, "whether a bit is on", r"twins:fn is_(?:set|bit_on)\b"),
    (2, "the first word's number", r"twins:if self\.words\.len\(\) == 0"),
    (2, "the first word with a fault", r"twins:fn (?:share_fault|link_fault|first_made_at_struck)\b"),
    (2, "switching many links", r"twins:fn switch_all_o\w+"),
    (2, "the start of the part or rule of a number", r"twins:for _ in 0\.\.i "),
    (2, "a look-up of names", r"twins:fn (?:verb_of|hub_verb_of|kind_of)\b"),
    (2, "a reader of three numbers", r"twins:fn read_(?:question|wanted_hub)\b"),
    (2, "a loop over lines", r"twins:fn play(?:_alone|_layer)?[<(]"),
    (2, "a text of a refusal", r"twins:fn (?:make|switch|hub|write|survey|layer)_text\b"),
    (2, "things or links in a short array", r"twins:struct (?:Row|Binding)\b"),
    (2, "a maker of a store", r"twins:fn (?:list_at|bits_at|list_full|bits_full|over_list|over_bits|on_list|on_bits|play_list|play_bits)\b"),
    (2, "the number of a refusal", r"twins:fn number\(self\) -> u8\s+ensures[^\n]+\s+\{\s+self as u8"),
    (2, "the asking for a store", r"twins:pub fn ask\(things: u32, limit: usize, (?:slots|words)"),
    (2, "the next node that meets a link", r"twins:fn next_met_"),
    (2, "words with their place", r"twins:struct (?:Run|BanRun|RuleRun)<"),
    (2, "a change held", r"twins:fn hold_o\w+"),
    (3, "a while that counts", r"while \w+ [<>]=? ?\w"),
    (3, "a for over numbers that are places, or that only count", r"for \w+ in 0\.\.(?:4 \{\n\s+let|[a-z(])"),
    (3, "a for that only searches", r"for \w+ in [^{\n]+\{\n(?:\s+let [^\n]+\n)?\s+if [^\n]+\{\n\s+return|for \w+ in [^{\n]+\{\n\s+if let Some\(_\)|let Some\(next\) = with_\w+"),
    (4, "a text of one's own", r"fn (?:text|\w+_text)\("),
    (4, "an equality or an order of one's own", r"fn is_same\b|self\.source < other\.source"),
    (4, "a conversion of one's own", r"fn (?:read_word|link_of|share_of|one_if|switched|numbered|rules_answer)\b"),
    (5, "the sizes stay", r"ensures (?:things|limit) \{ \S*(?:things|limit) \S+\.new|ensures sizes \{ KeepsSizes"),
    (5, "the list rises", r"ascending R\.before \(items self\.\w+\) ≡ true →"),
    (5, "held changes are few, and differ from what lies below", r"ensures (?:few|fresh) \{ (?:held_in|Fresh)"),
    (5, "a graph, a pattern and an outer binding", r"outer: &Binding"),
    (5, "a base and an edit", r"edit: &Edit"),
    (5, "a node, a label and a direction", r"direction: Direction,\n\s+node: u32,\n\s+label: u32,\n\s+from"),
    (5, "a session and a desk", r"desk: &mut Desk"),
    (5, "words and their place", r"(?:words|shares|links): &\[u32\], place: usize\) -> Option"),
    (5, "a graph and a rule", r"graph: &L,\s*(?:rule|run): RuleRun"),
    (5, "words say a rule or a ban", r"(?:RuleHere|BanHere|RuleAt|BanAt) \S+ [^→]*→"),
    (5, "the counts of a reading are small", r"Small s\w* →"),
    (6, "a length beside an array or a slice", r"\n    len: usize,|out: &mut \[u32\], at: usize"),
    (6, "an index that runs beside a slice", r"words\[i\] = 0|out\[at \+ k\] = |let mid = low"),
    (6, "a buffer kept beside what it is read into", r"\n    line: Vec<u8>,|\n    words: Vec<u32>,\n\}"),
    (7, "an enum that says which step to run", r"enum (?:Class|Verb|HubVerb)\b"),
    (7, "a number or a bool that says which step to run", r"layers: u32|(?<!pub )\bheld: bool,\s"),
]


def files(commit):
    if commit:
        names = subprocess.run(["git", "ls-tree", "-r", "--name-only", commit, "crates"], capture_output=True, text=True, check=True).stdout.split()
    else:
        names = subprocess.run(["git", "ls-files", "crates"], capture_output=True, text=True, check=True).stdout.split()
    for name in names:
        if "/src/" in name and name.endswith(".rt"):
            if commit:
                yield name, subprocess.run(["git", "show", f"{commit}:{name}"], capture_output=True, text=True, check=True).stdout
            else:
                try:
                    yield name, open(name, encoding="utf-8").read()
                except FileNotFoundError:
                    pass


def main():
    args = sys.argv[1:]
    verbose = "-v" in args
    commits = [a for a in args if a != "-v"]
    texts = list(files(commits[0] if commits else None))
    totals = {}
    for point, what, pattern in PLACES:
        twins = pattern.startswith("twins:")
        found = [(name, text[: m.start()].count("\n") + 1) for name, text in texts for m in re.finditer(pattern.removeprefix("twins:"), text)]
        if twins and len(found) < 2:
            found = []
        totals[point] = totals.get(point, 0) + len(found)
        print(f"{point}  {len(found):4}  {what}")
        if verbose:
            for name, line in found:
                print(f"         {name}:{line}")
    for point, total in totals.items():
        print(f"point {point}: {total}")
    stays = sum(len(re.findall(r"// Stays: ", text)) for _, text in texts)
    print(f"lines that say why a place stays: {stays}")


main()
