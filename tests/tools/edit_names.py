"""Names that an edit of edits/ uses and that are not there, as far as reading the sources shows.

- A function, a type or a constant has to be in the edited file. Behind a path of this repository it
  has to be in the crate that the path begins with.
- A field or a method has to be a word of the crate, or of one below it.
- If the type of the value before the dot is one of the repository, it has to be a field or a method
  of that type. The type is known of `self`, of parameters, and of their fields. The same goes for
  what is behind `Type::`.

Nothing else is read. So the prover may not be able to read an edit that has all its names.
"""
import collections
import functools
import glob
import re

from programs import ROOT, text_of

# what needs no import, and what std has that no source of some crate uses
PRELUDE = set("Drop Err None Ok Option Result Self Some String Vec drop matches".split())
STD = set("and copied is_some is_some_and map max min or rposition saturating_add saturating_sub "
          "shrink_to_fit trim_start try_reserve".split())
# what a type may have by a derive or by std
GIVEN = set("clone cmp default eq fmt from hash into max min ne partial_cmp".split())
# traits that give a type nothing else
PLAIN = set("Clone Copy Debug Default Display Drop Eq From Model PartialEq".split())
# texts, bytes and comments
NO_CODE = re.compile(r'b?"(?:[^"\\]|\\.)*"|b?\'(?:[^\'\\\n]|\\.[^\'\n]*)\'|//.*')
BOUND = re.compile(r"\b(?:fn|let|let mut|const|for|as) (\w+)|\|(\w+)[|,:]")
NAMED = re.compile(r"(?<![\w.':])((?:\w+::)*)(?:(\w+)(?=(?:::<[^;]*?>)?!?\()|([A-Z]\w*))")
MEMBER = re.compile(r"(?<=[\w)\]?]\.)([a-z_]\w*)")
CHAIN = re.compile(r"(?<![\w.'])([a-z_]\w*)((?:\.[a-z_]\w*)+)")
HEAD = re.compile(r"(?:pub(?:\(\w+\))? )?(struct|enum|trait|impl)\b(?:<.*?>)? ?"
                  r"(?:(\w+)(?:<.*>)? for )?(\w+)(?:<.*?>)?(?:: ([\w +]+))?")
ITEM = re.compile(r" {4}(?:pub(?:\(\w+\))? )?(?:const )?(?:fn|const|type) (\w+)")
FIELD = re.compile(r" {4}(?:pub(?:\(\w+\))? )?(\w+)(?:: (.*)| = \d+)?(?:,$| ?[({])")
PARAMETER = re.compile(r"\b(\w+): ((?:&(?:'\w+ )?)?(?:mut )?(?:\w+::)?[A-Z]\w*)")
ARGUMENT = re.compile(r"(\w+): ([\w +]+)")


def code_of(text):
    """The text without what is in quotes, and without comments."""
    return NO_CODE.sub('""', text)


def type_name(text):
    """The name of a type, behind a reference and a path: a word, or nothing."""
    return re.match(r"(?:&(?:'\w+ )?)?(?:mut )?(?:\w+::)*(\w*)", text)[1]


# A type or a trait: its members, the types of its fields, and the traits that give it more.
Type = collections.namedtuple("Type", "members fields traits")


class Sources:
    """The sources of some crates: their texts and words by path, and their types by name."""

    def __init__(self, crates):
        self.texts, self.words, self.types = {}, {}, {}
        for crate in crates:
            for path in glob.glob("crates/%s/src/**/*.rt" % crate, root_dir=ROOT, recursive=True):
                self.texts[path] = text_of(path)
                code = code_of(self.texts[path])
                self.words[path] = set(re.findall(r"\w+", code))
                self.read_types(code)

    def read_types(self, text):
        at = None
        for line in text.split("\n"):
            head = HEAD.match(line)
            if head:
                kind, trait, name, bounds = head.groups()
                at = self.types.setdefault(name, Type(set(GIVEN), {}, set()))
                at.traits.update([trait] if trait else (bounds or "").split(" + "))
            elif line == "}":
                at = None
            elif at and ITEM.match(line):
                at.members.add(ITEM.match(line)[1])
            elif at and kind in ("struct", "enum") and FIELD.match(line):
                name, field = FIELD.match(line).groups()
                at.members.add(name)
                at.fields[name] = field or ""

    def members(self, name):
        """The members of a type, or None if it is no type of these, or has a trait of elsewhere."""
        if name not in self.types:
            return None
        more = [self.members(it) for it in self.types[name].traits - PLAIN - {""}]
        return None if None in more else self.types[name].members.union(*more)

    def has(self, word, root="crates/"):
        return any(word in words for path, words in self.words.items() if path.startswith(root))

    def missing_members(self, new, known):
        """What is behind a dot or a type's `::` in a text, and no member of the type before it."""
        for name, path in CHAIN.findall(new):
            kind = known.get(name)
            for member in path[1:].split("."):
                found = self.members(kind)
                if found is not None and member not in found:
                    yield "%s of %s" % (member, kind)
                kind = type_name(self.types[kind].fields.get(member, "")) if found else None
        for kind, member in re.findall(r"\b([A-Z]\w*)::(\w+)", new):
            kind = known.get("self") if kind == "Self" else kind
            found = self.members(kind)
            if found is not None and member not in found:
                yield "%s of %s" % (member, kind)

    def missing_words(self, new, others, crate):
        """What a text calls or names, and what is not there. `others` is the rest of its file."""
        here = PRELUDE.union(re.findall(r"\w+", others), *BOUND.findall(new))
        for path, function, name in NAMED.findall(new):
            path, word = path.split("::")[:-1], function or name
            root = "crates/%s/src/" % (path[0].replace("crate", crate) if path else "")
            if not path and word not in here:
                yield word
            elif root + "lib.rt" in self.texts or path[:1] == ["crate"]:
                if not all(self.has(it, root) for it in (*path[1:], word)):
                    yield "::".join((*path, word))
        yield from (it for it in MEMBER.findall(new) if it not in STD and not self.has(it))


read_sources = functools.lru_cache(maxsize=None)(Sources)


def types_at(text, place):
    """The types of names at a place of a source: of `self` and of parameters.

    That of a type parameter is the trait that it has, if there is one beside plain ones.
    """
    before = text[:text.find("\n", place)]
    begin = max((it.start() for it in re.finditer(r"^ *(pub\S* )?fn ", before, re.M)), default=0)
    signature = re.split(r"(?m)\{$", text[begin:])[0]
    head = [it for it in before[:begin].split("\n") if it.startswith("impl")]
    found, kinds = {}, {}
    if head and text[begin:].startswith("    "):
        found["self"] = HEAD.match(head[-1])[3]
        signature = head[-1] + signature
    for bounds in re.findall(r"(?:fn \w+|impl)<(.*?)>", signature):
        for name, traits in ARGUMENT.findall(bounds):
            traits = set(traits.split(" + ")) - PLAIN
            kinds[name] = traits.pop() if len(traits) == 1 else None
    for name, kind in PARAMETER.findall(signature):
        found[name] = kinds.get(type_name(kind), type_name(kind))
    return found


def missing_names(edit, crates):
    """The names that an edit uses and that are not there. `crates` are its own and those below."""
    sources, texts, made, found = read_sources(crates), {}, [], []
    for path, old, new in edit.changes:
        if path.endswith(".rt"):
            text = texts.get(path, sources.texts["crates/%s/%s" % (edit.crate, path)])
            texts[path] = text.replace(old, new)
            made.append((path, new, types_at(texts[path], text.index(old))))
    for path, new, known in made:
        # a later pair may have replaced it
        if new and new in texts[path]:
            others = code_of(texts[path].replace(new, "", 1))
            found += sources.missing_members(code_of(new), known)
            found += sources.missing_words(code_of(new), others, edit.crate)
    return found
