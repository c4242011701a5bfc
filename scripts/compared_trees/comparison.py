"""What a program and the reference print of trees, and where their texts differ."""

import collections
import json
import subprocess

from trees import difference, marked, program


def printed(printer, words, tree):
    """What a program prints of a tree; what it says where it refuses it."""
    text = json.dumps(tree, ensure_ascii=False, separators=(",", ":")).encode("utf-8", "surrogatepass")
    ran = subprocess.run([printer, "--any", *words], input=text, stdout=subprocess.PIPE, stderr=subprocess.PIPE, check=False)
    if ran.returncode != 0:
        return None, ran.stderr.decode().strip()
    return ran.stdout.decode(), None


def of_reference(reference, asked):
    """The same of the reference, for pairs of words and trees."""
    requests = []
    for words, tree in asked:
        other = marked(tree)
        # (elsewhere that text would end each list that stands somewhere with a comma)
        requests.append(json.dumps({"args": [*words, *(["--snippet", "[a,]"] if other != tree else [])], "tree": other}))
    requests = "\n".join(requests)
    ran = subprocess.run([reference, "--batch"], input=requests + "\n", stdout=subprocess.PIPE, check=True, text=True)
    replies = [json.loads(line) for line in ran.stdout.split("\n") if line]
    assert len(replies) == len(asked)
    return [(reply["out"], None) if reply["status"] == 0 else (None, " ".join(reply["err"][-1:])) for reply in replies]


class Comparison:
    """Manners are words of a run by their names."""

    def __init__(self, printer, reference, manners):
        self.printer, self.reference, self.manners = printer, reference, manners
        self.kinds = collections.defaultdict(list)
        self.statements = 0

    def halve(self, manner, body):
        """Finds the statements of a script that are printed otherwise."""
        halves = [body[: len(body) // 2], body[len(body) // 2 :]]
        theirs = of_reference(self.reference, [(self.manners[manner], program(half)) for half in halves])
        for half, answer in zip(halves, theirs):
            self.look(manner, half, answer)

    def look(self, manner, body, theirs):
        ours = printed(self.printer, self.manners[manner], program(body))
        kind = difference(ours, theirs)
        if kind and len(body) > 1:
            self.halve(manner, body)
        elif kind:
            self.kinds[kind].append((manner, body[0], ours, theirs))

    def compare(self, trees):
        asked = [(manner, tree) for tree in trees for manner in self.manners]
        theirs = of_reference(self.reference, [(self.manners[manner], tree) for manner, tree in asked])
        for (manner, tree), answer in zip(asked, theirs):
            ((_, whole),) = tree.items()
            self.look(manner, whole["body"], answer)
        self.statements += sum(len(next(iter(tree.values()))["body"]) for tree in trees)

    def tell(self, show):
        for kind, found in sorted(self.kinds.items()):
            found.sort(key=lambda one: len(json.dumps(one[1])))
            by_manner = collections.Counter(manner for manner, _, _, _ in found)
            print("%s: %s" % (kind, ", ".join("%d %s" % (count, manner) for manner, count in sorted(by_manner.items()))))
            for manner, node, ours, theirs in found[:show]:
                print("  %s  %s" % (manner, json.dumps(node, ensure_ascii=False, separators=(",", ":"))[:1000]))
                print("    the program:   %r" % (ours[0] if ours[1] is None else ours[1],))
                print("    the reference: %r" % (theirs[0] if theirs[1] is None else theirs[1],))
        counts = {kind: len(found) for kind, found in self.kinds.items()}
        others = sum(count for kind, count in counts.items() if kind != "other blanks")
        told = (self.statements, len(self.manners), others, counts.get("other blanks", 0))
        print("%d statements in %d manners: %d texts differ, %d more in blanks alone" % told)
        return others == 0
