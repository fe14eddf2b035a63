"""The workloads of bench/run: each is a project of n targets, or a makefile of n lines, in the language of each tool
that can have it. ours and bmake share one makefile; make (GNU) has its own where the languages differ; ninja has
an equivalent build.ninja. A tool that has no equivalent is left out."""
import os

# Times of sources, of targets, and of a source that was changed, in seconds.
OLD, MADE, NEW = 1_600_000_000, 1_600_001_000, 1_600_002_000

# Of null-traced: how many headers there are, and how many of them a target reads.
HEADERS, READS = 200, 20

META = ".MAKE.MODE=meta curdirOk=yes missing-meta=yes"


class Workload:
    """name and n: what it is called, and how large it is.
    kind: `print` (what tools print has to agree), `null` (nothing may be made), `one` (one target is to be made)
    or `full` (all targets are to be made: they are removed before each run).
    files: of each tool, names and texts. words: of each tool, what it is called with.
    targets, sources: files that stand, or come to stand.
    prepare: of each tool, the calls that come first, which are not measured. setup(tool, directory) comes behind."""

    def __init__(self, name, n, kind, files, words, targets=(), sources=(), prepare=None, setup=None):
        self.name, self.n, self.kind = name, n, kind
        self.files, self.words = files, words
        self.targets, self.sources = list(targets), list(sources)
        self.prepare, self.setup = prepare or {}, setup


def prints(name, n, text, shown, of_make=None):
    """A makefile is read, and a value is printed."""
    files = {"ours": {"mk": text}, "bmake": {"mk": text}}
    words = {"ours": ["-f", "mk", "-V", shown], "bmake": ["-f", "mk", "-V", shown]}
    if of_make is not None:
        files["make"], words["make"] = {"mk": of_make + "all:;@:\n"}, ["-f", "mk", "-s"]
    return Workload(name, n, "print", files, words)


def start(n):
    """An empty makefile: what the start costs."""
    it = prints("start", n, "", "${X}", "$(info $(X))\n")
    it.files["ninja"], it.words["ninja"] = {"build.ninja": "build all: phony\n"}, ["-n"]
    return it


def parse(n):
    """Plain assignments, every second one of a reference."""
    half = n // 2
    lines = "".join(f"V{i}=some value {i} -DX={i}\nR{i}= ${{V{i}}} and more\n" for i in range(half))
    it = prints("parse", n, lines, f"${{R{half - 1}}}", lines + f"$(info $(R{half - 1}))\n")
    of_ninja = "".join(f"V{i} = some value {i} -DX={i}\nR{i} = ${{V{i}}} and more\n" for i in range(half))
    it.files["ninja"], it.words["ninja"] = {"build.ninja": of_ninja + "build all: phony\n"}, ["-n"]
    return it


def assign_now(n):
    """Each `:=` takes three words of the one before."""
    ours = "V0:= a b c\n" + "".join(f"V{i}:= ${{V{i - 1}:[1..3]}} {i}\n" for i in range(1, n))
    make = "V0:= a b c\n" + "".join(f"V{i}:= $(wordlist 1,3,$(V{i - 1})) {i}\n" for i in range(1, n))
    return prints("assign-now", n, ours, f"${{V{n - 1}}}", make + f"$(info $(V{n - 1}))\n")


def append(n):
    """A word with each `+=`."""
    lines = "".join(f"L+= w{i}.c\n" for i in range(n))
    return prints("append", n, lines, "${L:[#]}", lines + "$(info $(words $(L)))\n")


def cond(n):
    """Blocks of .if, .elif and .else."""
    ours, make = ["V= x7\n"], ["V= x7\n"]
    for i in range(n):
        ours.append(f'.if ${{V}} == "x{i}" && !defined(Q{i})\nR=yes{i}\n.elif defined(Q{i})\nS=a\n.else\nT=n{i}\n.endif\n')
        make.append(f"ifeq ($(V),x{i})\nR=yes{i}\nelse ifdef Q{i}\nS=a\nelse\nT=n{i}\nendif\n")
    return prints("cond", n, "".join(ours), "${R} ${T}", "".join(make) + "$(info $(R) $(T))\n")


def for_if(n):
    """Loops in loops, with an .if and an assignment a turn."""
    first = int(n**0.5)
    while n % first:
        first -= 1
    words = lambda count: " ".join(map(str, range(count)))
    lists = f"I= {words(first)}\nJ= {words(n // first)}\n"
    ours = lists + ".for i in ${I}\n.for j in ${J}\n.if ${i} != ${j}\nN_${i}_${j}= v${j}\n.endif\n.endfor\n.endfor\n"
    make = lists + "$(foreach i,$(I),$(foreach j,$(J),$(if $(filter $(i),$(j)),,$(eval N_$(i)_$(j)= v$(j)))))\n"
    return prints("for-if", n, ours, "${N_3_7} ${N_4_4}", make + "$(info $(N_3_7) $(N_4_4))\n")


EXPANSIONS = {
    "S": ("${L:S/w/x/}", "$(L:w%=x%)"),
    "Sg": ("${L:S/0/oo/g}", "$(subst 0,oo,$(L))"),
    "M": ("${L:M*7.c}", "$(filter %7.c,$(L))"),
    "N": ("${L:N*7.c}", "$(filter-out %7.c,$(L))"),
    "set": ("${L:Mw*[0-4]?.c}", None),
    "suffix": ("${L:.c=.o}", "$(L:.c=.o)"),
    "TR": ("${L:T:R}", "$(basename $(notdir $(L)))"),
    "each": ("${L:@v@p/${v}.x@}", "$(foreach v,$(L),p/$(v).x)"),
    "Ou": ("${L:O:u}", "$(sort $(L))"),
    "tu": ("${L:tu}", None),
    "Q": ("${L:Q}", None),
    "chain": (
        "${L:M*[0-4].c:S/w/x/:@v@p/${v}@:O:u:.c=.o}",
        "$(patsubst %.c,%.o,$(sort $(foreach v,$(patsubst w%,x%,$(filter %0.c %1.c %2.c %3.c %4.c,$(L))),p/$(v))))",
    ),
}


def expand(kind):
    """One expansion over n words, which come in no order, so that there is something to sort."""
    ours, make = EXPANSIONS[kind]

    def of(n):
        text = f"L= {' '.join(f'w{i * 7919 % n}.c' for i in range(n))}\n"
        return prints(f"expand-{kind}", n, text, ours, make and text + f"$(info {make})\n")

    return of


def named(count, letter):
    return [f"{letter}{i}" for i in range(count)]


def flat(n, echo=False, meta=False, exports=0):
    """all over t0 and so on, each with a source and a command."""
    command = "@echo one $@; : > $@; echo two $@" if echo else ": > $@"
    top = (META + "\n" if meta else "") + "".join(f"E{i}= value {i}\n.export E{i}\n" for i in range(exports))
    rules = "".join(f"t{i}: s{i}\n\t{command}\n" for i in range(n))
    makefile = f"{top}.PHONY: all\nall: {' '.join(named(n, 't'))}\n{rules}"
    files = {"ours": {"mk": makefile}, "bmake": {"mk": makefile}}
    if not meta:
        of_ninja = command.replace("$@", "$out").lstrip("@")
        edges = "".join(f"build t{i}: r s{i}\n" for i in range(n))
        if not exports:
            files["make"] = {"mk": makefile}
            files["ninja"] = {"build.ninja": f"rule r\n  command = {of_ninja}\n{edges}"}
    return files


def words_of(files, *more):
    return {tool: ([] if tool == "ninja" else ["-f", "mk"]) + list(more) for tool in files}


def null(n, name="null", kind="null", meta=False, exports=0):
    files = flat(n, meta=meta, exports=exports)
    prepare = {"ninja": [["-j4"]]}
    if meta:
        prepare = {tool: [["-f", "mk", "-j4"]] for tool in files}
    return Workload(name, n, kind, files, words_of(files), named(n, "t"), named(n, "s"), prepare)


def null_meta(n):
    return null(n, "null-meta", meta=True)


def null_exports(n):
    return null(n, "null-exports", exports=20)


def one_changed(n):
    return null(n, "one-changed", "one")


def full(name, jobs, echo=False, meta=False):
    def of(n):
        files = flat(n, echo, meta)
        words = words_of(files, f"-j{jobs}")
        if echo and "make" in words:
            words["make"].append("-Otarget")
        return Workload(name, n, "full", files, words, named(n, "t"), named(n, "s"))

    return of


def same_for_makes(name, n, makefile, of_ninja, targets, sources, words=()):
    files = {tool: {"mk": makefile} for tool in ("ours", "bmake", "make")}
    if of_ninja:
        files["ninja"] = {"build.ninja": of_ninja}
    return Workload(name, n, "null", files, words_of(files, *words), targets, sources, {"ninja": [["-j4"]]})


def chain(n):
    rules = "".join(f"t{i}: t{i + 1}\n\t: > $@\n" for i in range(n - 1)) + f"t{n - 1}: s0\n\t: > $@\n"
    edges = "".join(f"build t{i}: r t{i + 1}\n" for i in range(n - 1)) + f"build t{n - 1}: r s0\n"
    return same_for_makes("chain", n, rules, f"rule r\n  command = : > $out\n{edges}", named(n, "t"), ["s0"])


def fan_in(n):
    sources = " ".join(named(n, "s"))
    of_ninja = f"rule r\n  command = : > $out\nbuild t0: r {sources}\n"
    return same_for_makes("fan-in", n, f"t0: {sources}\n\t: > $@\n", of_ninja, ["t0"], named(n, "s"))


def suffix_rule(n):
    targets = [f"f{i}.o" for i in range(n)]
    makefile = f".SUFFIXES: .c .o\n.c.o:\n\t: $< > $@\n.PHONY: all\nall: {' '.join(targets)}\n"
    return same_for_makes("suffix-rule", n, makefile, None, targets, [f"f{i}.c" for i in range(n)], ["all"])


def second_directory(n):
    """The same with the sources in the second directory that is searched; GNU make has that as `VPATH`."""
    it = suffix_rule(n)
    search = {"make": "VPATH = e d\n"}
    files = {tool: {"mk": search.get(tool, ".PATH: e d\n") + of["mk"]} for tool, of in it.files.items()}
    it.name, it.files, it.sources = "second-directory", files, [f"d/{name}" for name in it.sources]
    return it


def null_traced(n):
    """Nothing to do in meta mode, where each target has 20 recorded reads of 200 headers; make has them as sources, ninja
    in depfiles. bmake, which has no recorder here, gets its records put there."""
    read = lambda i: " ".join(f"h{(i * 13 + k * 7) % HEADERS}" for k in range(READS))
    top = f".PHONY: all\nall: {' '.join(named(n, 't'))}\n"
    rules = "".join(f"t{i}: s{i}\n\t@cat s{i} {read(i)} > $@\n" for i in range(n))
    recorded = os.environ.get("FMRUN")
    files = {"bmake": {"mk": f"{META}\n{top}{rules}"}, "make": {"mk": f"{top}{rules}include deps.mk\n"}}
    files["make"]["deps.mk"] = "".join(f"t{i}: {read(i)}\n" for i in range(n))
    edges = "".join(f"build t{i}: r s{i}\n  hs = {read(i)}\n" for i in range(n))
    rule = "  deps = gcc\n  depfile = $out.d\n  command = cat $in $hs > $out; echo $out: $hs > $out.d\n"
    files["ninja"] = {"build.ninja": f"rule r\n{rule}{edges}"}
    if recorded:
        rules = "".join(f"t{i}: s{i}\n\t@{recorded} cat $@ s{i} {read(i)}\n" for i in range(n))
        files["ours"] = {"mk": f"{META} missing-filemon=yes\n{top}{rules}"}

    def records(tool, directory):
        for i in range(n if tool == "bmake" else 0):
            reads = "".join(f"R 101 {directory}/{path}\n" for path in [f"s{i}", *read(i).split()])
            with open(f"{directory}/t{i}.meta", "a", encoding="utf-8") as it:
                it.write(f"\n-- filemon acquired metadata --\n# filemon version 5\nV 5\n{reads}")
                it.write(f"W 101 {directory}/t{i}\nX 101 0 0\n# Bye bye\n")

    prepare = {"ours": [["-f", "mk", "-j4"]], "bmake": [["-f", "mk", "-j4"]], "ninja": [["-j4"]]}
    sources = named(n, "s") + named(HEADERS, "h")
    return Workload("null-traced", n, "null", files, words_of(files), named(n, "t"), sources, prepare, records)


# The greatest size of each, where it has one: those in which all is made take long, and so does what comes before the
# runs of those with meta files.
WORKLOADS = [
    (start, 1),
    *[(it, None) for it in (parse, assign_now, append, cond, for_if)],
    *[(expand(kind), None) for kind in EXPANSIONS],
    *[(it, None) for it in (null, one_changed, suffix_rule, second_directory, chain, fan_in)],
    *[(it, 50_000) for it in (null_exports, null_meta, null_traced)],
    (full("full-j1", 1), 5_000),
    (full("full-j4", 4), 1_000),
    (full("full-echo-j4", 4, echo=True), 1_000),
    (full("full-meta-j4", 4, meta=True), 1_000),
]
