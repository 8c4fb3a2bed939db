"""compare.py OWN.dll REFERENCE.dll [SOURCE.cs]: whether a reference assembly has the public types and members of the base
library's own, as `monodis` lists them, and no others but the types of the source, which only a compiler asks for.

What is left out: code, names of parameters, when an initialiser runs, who wrote a member (internal calls), and whether a
method of a value type overrides one."""
import re
import subprocess
import sys

UNSEEN = {"default", "cil", "managed", "internalcall", "class", "valuetype", "rtspecialname"}


def words(text):
    text = re.sub(r"\[mscorlib\]|'", "", text)
    text = re.sub(r"\s+A_\d+|(?<=[\w\]&])\s+[\w]+(?=[,)])", "", text)
    return " ".join(word for word in re.sub(r"([(),])", r" \1 ", text).split() if word not in UNSEEN)


def declarations(path):
    """The heads of namespaces, types, fields and methods, each in one line."""
    lines = subprocess.run(["monodis", path], capture_output=True, text=True, check=True).stdout.splitlines()
    head = None
    for line in map(str.strip, lines):
        if re.match(r"\.(namespace|field)\b", line):
            yield line
        elif re.match(r"\.(class|method)\b", line):
            head = line
        elif head is not None:
            head += " " + line
        if head is not None and "{" in head:
            yield head.split("{")[0]
            head = None


class Type:
    """A type by its head: name, kind, and what it extends and implements."""

    def __init__(self, namespace, head):
        flags, name = re.match(r"\.class(.*?)\s(\S+)\s*(?:extends|implements|$)", head).groups()
        above, below = re.search(r"extends\s+(\S+)", head), re.search(r"implements\s+(.*)", head)
        self.name = namespace + name.strip("'")
        self.is_public = "public" in flags
        self.kind = next((kind for kind in ("interface", "abstract", "sealed") if kind in flags.split()), "class")
        self.above = above.group(1) if above else "nothing"
        self.below = below.group(1).strip() if below else "nothing"

    def told(self):
        return f"{self.name}: {self.kind} above {self.above} implements {self.below}"

    def member(self, head):
        """A public or protected member; none of another one."""
        text = words(head)
        if self.kind == "sealed" and self.above.endswith("System.ValueType"):
            text = text.replace(" virtual", "")
        return f"{self.name}: {text}" if re.match(r"\.(field|method) (public|family)", text) else None


def members(path):
    namespace, owner, found = "", None, []
    for head in declarations(path):
        if head.startswith(".namespace"):
            namespace = head.split()[1] + "."
        elif head.startswith(".class"):
            owner = Type(namespace, head)
            found.append(owner.told() if owner.is_public else None)
        else:
            found.append(owner.member(head))
    return sorted(line for line in found if line)


def named_in(source):
    """The full names of the types of a source."""
    namespace, names = "", set()
    for line in open(source, encoding="utf-8"):
        found = re.match(r"namespace (\S+)|    public .*?\b(?:class|struct|enum|interface) (\w+)", line)
        if found and found.group(1):
            namespace = found.group(1) + "."
        elif found:
            names.add(namespace + found.group(2))
    return names


def owner_of(line):
    return line.split(": ")[0]


def main(own, reference, *sources):
    asked, given = members(own), members(reference)
    extra = set().union(*map(named_in, sources)) - set(map(owner_of, asked))
    missing = [line for line in asked if line not in given]
    further = [line for line in given if line not in asked and owner_of(line) not in extra]
    print("".join(f"missing: {line}\n" for line in missing) + "".join(f"further: {line}\n" for line in further), end="")
    there = extra & set(map(owner_of, given))
    print(f"{len(asked)} types and members, {len(missing)} missing, {len(further)} further, and {len(there)} types for the compiler")
    return 1 if missing or further else 0


if __name__ == "__main__":
    sys.exit(main(*sys.argv[1:]))
