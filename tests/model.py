#!/usr/bin/env python3
"""What a script of `syned` means: docs/DEFINITIONS.md and docs/SCRIPTS.md once more, as a program that takes nothing from the product.

    model.py <SCRIPT         what `syned` prints for a script, with its exit status
    model.py wide <SCRIPT    what `syned wide` prints

tests/models.py compares it with what is known, and the editor with it.

How to read it. A function or class has the name of a row of docs/DEFINITIONS.md and says what that row says, in the order of that page:
search for a name there to find its meaning, and here to find it as code. Names that begin with an underscore and names in capitals are
the model's own. A definition of changes takes the plan first, and a change by its number; a fact that holds of one value alone is the
function that returns it. Nothing is found step by step: a tree, a place, a fate or an order is what its definition says, tried on all
there is. `_kept` and `lru_cache` keep what was once found, and `Mapping`, `_Aims` and `_by_path` look things up in tables; neither changes a meaning.
Paths are tuples of slots, texts are bytes, an address is a tree's number with a path.
"""
import itertools
import re
import sys
from functools import lru_cache
from os.path import commonprefix
from typing import NamedTuple, Optional, Tuple

sys.setrecursionlimit(20000)

def _kept(function):
    """Keeps what a function of a plan and of numbers says."""
    def asked(plan, *arguments):
        key = (function.__name__,) + arguments
        if key not in plan.kept:
            plan.kept[key] = function(plan, *arguments)
        return plan.kept[key]
    asked.__doc__ = function.__doc__
    return asked


# Paths

def precedes(first, second):
    """Document order: tuples of slots are compared so, and a path comes before what is below it."""
    return first < second

def parent_path(path):
    return path[:-1]

def last_slot(path):
    return path[-1] if path else 0

def next_path(path):
    return path[:-1] + (path[-1] + 1,) if path else None

def previous_path(path):
    return path[:-1] + (path[-1] - 1,) if path and path[-1] > 0 else None

def above(path):
    return [path[:length] for length in range(len(path))]

def up_to(path):
    return above(path) + [path]

def siblings(first, last):
    return [parent_path(first) + (slot,) for slot in range(last_slot(first), last_slot(last) + 1)]


# Trees

class Tree(NamedTuple):
    """A token with a label and bytes, or a node with a label and children; what it isn't is None."""
    label: object
    bytes: Optional[bytes]
    children: Optional[Tuple]

def _token(label, written):
    return Tree(label, written, None)

def node(label, trees):
    return Tree(label, None, tuple(trees))

def children(tree):
    return tree.children or ()

def is_token(tree):
    return tree.children is None

def tokens(tree):
    """The label and the bytes of each token, in document order."""
    return [(tree.label, tree.bytes)] if is_token(tree) else [token for child in tree.children for token in tokens(child)]

def text(tree):
    return b"".join(written for _, written in tokens(tree))

def text_length(tree):
    return sum(len(written) for _, written in tokens(tree))

def texts(trees):
    return b"".join(text(tree) for tree in trees)

def at(tree, path):
    for slot in path:
        if slot >= len(children(tree)):
            return None
        tree = tree.children[slot]
    return tree

def _parts_at(top, tree):
    return [(top, tree)] + [part for slot, child in enumerate(children(tree)) for part in _parts_at(top + (slot,), child)]

@lru_cache(maxsize=16)
def _parts(tree):
    """Each part with its path, in document order, the top first."""
    return _parts_at((), tree)

def paths(tree):
    """The paths of all parts in document order, the top first."""
    return [path for path, _ in _parts(tree)]

def relabelled(tree, function):
    if is_token(tree):
        return _token(function(tree.label), tree.bytes)
    return node(function(tree.label), [relabelled(child, function) for child in tree.children])

def without_texts(tree):
    return _token(tree.label, b"") if is_token(tree) else node(tree.label, map(without_texts, tree.children))

def SameShape(first, second):
    return without_texts(first) == without_texts(second)

length_limit = 4294967296


# Document order

def node_paths(tree):
    return [path for path, part in _parts(tree) if not is_token(part)]

def tokens_before(tree, path):
    return [other for other, part in _parts(tree) if is_token(part) and precedes(other, path)]

def start(tree, path):
    return sum(len(at(tree, other).bytes) for other in tokens_before(tree, path))


# Element values

class Element:
    """A tree's number, the whole tree, and a path in it."""

    def __init__(self, number, tree, path):
        self.number, self.tree, self.path = number, tree, path

def address(element):
    return (element.number, element.path)

def subtree(element):
    return at(element.tree, element.path)

def IsElement(element):
    return subtree(element) is not None

def IsNode(element):
    return IsElement(element) and not is_token(subtree(element))

def IsToken(element):
    return IsElement(element) and is_token(subtree(element))

def IsChild(parent, child):
    return child.number == parent.number and child.path != () and parent_path(child.path) == parent.path

def element_at(element, path):
    return Element(element.number, element.tree, path)

def _existing(element, path):
    """The value of the same tree at a path, if there is such a path and it leads to an element."""
    return element_at(element, path) if path is not None and at(element.tree, path) is not None else None

def next_sibling(element):
    return _existing(element, next_path(element.path))

def previous_sibling(element):
    return _existing(element, previous_path(element.path))


# Positions and changes

class FirstChild(NamedTuple):
    """Gap 0 of a node."""
    anchor: Element

class After(NamedTuple):
    """The gap after an element."""
    anchor: Element

def after(element):
    return After(element) if element.path else None

def before(element):
    """The position before an element. A root has none."""
    if not element.path:
        return None
    previous = previous_sibling(element)
    return After(previous) if previous else FirstChild(element_at(element, parent_path(element.path)))

def last_child_of(element):
    count = len(children(subtree(element)))
    return After(element_at(element, element.path + (count - 1,))) if count else FirstChild(element)

class Change(NamedTuple):
    """A change of one of the five forms. An insert has a position, a replacement its first and last target, which may be one."""
    form: str
    position: Optional[Tuple]
    first: Optional[Element]
    last: Optional[Element]
    payload: Tuple[Element, ...]

def _insert(form, position, elements):
    return Change(form, position, None, None, tuple(elements))

def _replacement(form, first, last, elements):
    return Change(form, None, first, last, tuple(elements))

def fills_gap(change):
    """The change is an insert."""
    return change.position is not None

class Aim(NamedTuple):
    """Where a change aims, by paths alone: `first` in a node, `after` an element, or `over` its targets."""
    form: str
    paths: Tuple

def aim(change):
    if fills_gap(change):
        return Aim("first" if isinstance(change.position, FirstChild) else "after", (change.position.anchor.path,))
    return Aim("over", tuple(siblings(change.first.path, change.last.path)) if change.form == "ReplaceAll" else (change.first.path,))

def aim_path(an_aim):
    return an_aim.paths[0]

def targets(an_aim):
    """The paths that a replacement replaces."""
    return an_aim.paths if an_aim.form == "over" else ()

def gap_of(an_aim):
    """The gap that an aim fills, as a node's path and an index, if it is an insert and not after the top."""
    path = aim_path(an_aim)
    if an_aim.form == "first":
        return (path, 0)
    return (parent_path(path), last_slot(path) + 1) if an_aim.form == "after" and path else None

def same_gap(first, second):
    return gap_of(first) is not None and gap_of(first) == gap_of(second)


# What a change must meet

def is_native(root, element):
    return element.number == root.number and at(root.tree, element.path) is not None

def is_root(element):
    return element.path == ()

def have_one_path(first, last):
    return first.path == last.path

def are_siblings(first, last):
    return not is_root(first) and not is_root(last) and parent_path(first.path) == parent_path(last.path)

def is_range(first, last):
    return have_one_path(first, last) or (are_siblings(first, last) and last_slot(first.path) <= last_slot(last.path))

def is_one_node(elements):
    return len(elements) == 1 and IsNode(elements[0])


# Mappings

class Mapping:
    """Pairs of an address and that of its copy, the newest first."""

    def __init__(self, pairs=()):
        self.pairs = tuple(pairs)
        self.copies = dict(reversed(self.pairs))
        self.originals = {}
        for original, its_copy in self.copies.items():
            self.originals.setdefault(its_copy, []).append(original)

def copy(mapping, an_address):
    """The copy of an address, if it has one: the newest pair wins."""
    return mapping.copies.get(an_address)

def child_address(an_address, slot):
    return (an_address[0], an_address[1] + (slot,))

def _stood_for(mapping, child):
    """Every address whose copy is a child, and the child itself if it has no copy."""
    return mapping.originals.get(child, []) + ([] if copy(mapping, child) else [child])

def StandsFor(mapping, a_payload, path, target):
    """At this path of a payload is the place of an address."""
    if not path:
        return a_payload == target
    return any(StandsFor(mapping, stood, path[1:], target) for stood in _stood_for(mapping, child_address(a_payload, path[0])))

def step(mapping, an_address):
    """The lowest of an element and the elements above it that has a copy, exchanged for that copy; the path below is kept."""
    number, path = an_address
    for upper in reversed(up_to(path)):
        exchanged = copy(mapping, (number, upper))
        if exchanged:
            return (exchanged[0], exchanged[1] + path[len(upper):])
    return None

def followed(mapping, an_address):
    """The end of an element's steps."""
    further = step(mapping, an_address)
    return followed(mapping, further) if further else an_address

def RefusesPair(parent, original, its_copy):
    """Why a pair is refused, if it is."""
    if not IsChild(parent, its_copy):
        return "NotAChild"
    if its_copy.number <= original.number:
        return "NotYounger"
    return None if SameShape(subtree(original), subtree(its_copy)) else "OtherShape"


# Plans

class Plan:
    """A root, changes, registrations (annotations with elements) and a mapping."""

    def __init__(self, root, changes, registrations, mapping):
        self.root, self.changes, self.registrations, self.mapping = root, tuple(changes), tuple(registrations), mapping
        self.kept = {}

def _numbers(plan):
    return range(len(plan.changes))

@_kept
def _aim(plan, number):
    return aim(plan.changes[number])

def _by_path(plan, name, paths_of_change):
    """The numbers of the changes that have a path among certain ones, in order, for each such path."""
    if name not in plan.kept:
        table = plan.kept[name] = {}
        for number in _numbers(plan):
            for path in paths_of_change(plan, number):
                table.setdefault(path, []).append(number)
    return plan.kept[name]


# Clashes

def first_clash(plan):
    """The first pair that shares a target, ordered by the second number and then by the first."""
    at_one_path = _by_path(plan, "targets", lambda plan, number: targets(_aim(plan, number))).values()
    clashing = {(second, first) for numbers in at_one_path for first, second in itertools.combinations(numbers, 2)}
    return min(clashing)[::-1] if clashing else None


# Nesting

@_kept
def region(plan, number):
    """The targets of a replacement; none of a token that is replaced by itself."""
    change = plan.changes[number]
    if fills_gap(change) or (change.form != "ReplaceAll" and IsToken(change.first)):
        return ()
    return targets(_aim(plan, number))

def is_keeping(plan, number):
    """A `Replace` of a node by a node."""
    change = plan.changes[number]
    return change.form == "Replace" and IsNode(change.first) and is_one_node(change.payload)

@_kept
def surroundings(plan, number):
    """An insert's anchor and the elements above it, or the elements above a replacement's targets."""
    an_aim = _aim(plan, number)
    return above(aim_path(an_aim)) if an_aim.form == "over" else up_to(aim_path(an_aim))

def _with_region(plan, path):
    return _by_path(plan, "regions", region).get(path, [])

def is_around(plan, number):
    """The changes whose region has one of the surroundings of this one, from the highest of these down."""
    return [outer for path in surroundings(plan, number) for outer in _with_region(plan, path)]

@_kept
def is_dropped(plan, number):
    """Some region that is not keeping is around the change."""
    return any(not is_keeping(plan, outer) for outer in is_around(plan, number))

def region_at(plan, path):
    """The first change whose region has this path."""
    return min(_with_region(plan, path), default=None)

@_kept
def owner(plan, number):
    """For a change that is not dropped: the replacement with the deepest region around it, if there is one."""
    if is_dropped(plan, number):
        return None
    return next((region_at(plan, path) for path in reversed(surroundings(plan, number)) if _with_region(plan, path)), None)

def is_independent(plan, number):
    return not is_dropped(plan, number) and owner(plan, number) is None


# Places of owned changes

def IsPlaceIn(plan, an_owner, path):
    """An owner's payload has an element at this path, and the path is the place of the owner's target."""
    element = plan.changes[an_owner].payload[0]
    target = (plan.root.number, aim_path(_aim(plan, an_owner)))
    return at(subtree(element), path) is not None and StandsFor(plan.mapping, address(element), path, target)

@_kept
def ArePlaces(plan, an_owner):
    """For each owner: the place of its target in its payload, if there is one."""
    return next((path for path in paths(subtree(plan.changes[an_owner].payload[0])) if IsPlaceIn(plan, an_owner, path)), None)

def HasPlace(plan, number):
    """There is a place from which a change finds where it moves to: not `.` for an insert after the owner's target itself."""
    an_aim, target = _aim(plan, number), aim_path(_aim(plan, owner(plan, number)))
    place = ArePlaces(plan, owner(plan, number))
    return place is not None and not (place == () and an_aim == Aim("after", (target,)))

def IsUnplaced(plan, number):
    return owner(plan, number) is not None and not HasPlace(plan, number)

def _first_unplaced(plan):
    """The change of `IsFirstUnplaced`, if there is one."""
    return next((number for number in _numbers(plan) if IsUnplaced(plan, number)), None)


# Rewriting

class _Aims:
    """Aims with the numbers of their changes."""

    def __init__(self, aims):
        self.aims = list(aims)
        self.gaps, self.starts, self.replaced = {}, {}, set()
        for number, an_aim in self.aims:
            if an_aim.form == "over":
                self.starts.setdefault(aim_path(an_aim), []).append(number)
                self.replaced.update(targets(an_aim))
            else:
                self.gaps.setdefault(gap_of(an_aim), []).append(number)

def inserts_at(aims, path, index):
    return aims.gaps.get((path, index), [])

def replacements_at(aims, path):
    return aims.starts.get(path, [])

def is_replaced(aims, path):
    return path in aims.replaced

def gap_order(numbers):
    """The order of several inserts into one gap: the recorded order."""
    return sorted(numbers)

def gap(aims, path, index, given_by):
    """The elements in a gap."""
    return [tree for number in gap_order(inserts_at(aims, path, index)) for tree in given_by(number)]

def slot(aims, path, kept_child, given_by):
    """The elements in a child's slot: those of the replacement that starts there, none if one starts earlier, else the child."""
    if replacements_at(aims, path):
        return list(given_by(replacements_at(aims, path)[0]))
    return [] if is_replaced(aims, path) else [kept_child()]

def rewritten(tree, aims, label_at, given_by, path=()):
    """A tree with every child list made anew at once: gap 0, slot 0, gap 1, slot 1, .., the last gap."""
    if is_token(tree):
        return _token(label_at(path, tree.label), tree.bytes)
    made = []
    for index, child in enumerate(tree.children):
        below = path + (index,)
        made += gap(aims, path, index, given_by)
        made += slot(aims, below, lambda: rewritten(child, aims, label_at, given_by, below), given_by)
    return node(label_at(path, tree.label), made + gap(aims, path, len(tree.children), given_by))

def rewritten_whole(tree, aims, label_at, given_by):
    """The same where the top itself may be replaced: the trees that stand in its slot."""
    return slot(aims, (), lambda: rewritten(tree, aims, label_at, given_by), given_by)


# The new tree

class Origin(NamedTuple):
    """A kind, the address that the element was copied from, and the change whose payload it is in, if any."""
    kind: bytes
    address: Tuple
    change: Optional[int]

@lru_cache(maxsize=16)
def plain(tree):
    return relabelled(tree, lambda label: label.kind)

def origin(an_address, change):
    """The labels of elements copied from paths below an address, in the payload of a change or in none."""
    number, top = an_address
    return lambda path, kind: Origin(kind, (number, top + path), change)

def moved_path(path, target, place):
    """A path below the owner's target, moved below the target's place in the payload."""
    return place + path[len(target):]

def moved_aim(an_aim, target, place):
    return Aim(an_aim.form, tuple(moved_path(path, target, place) for path in an_aim.paths))

def only(aims, passes):
    return _Aims((number, an_aim) for number, an_aim in aims.aims if passes(number))

@_kept
def independents(plan):
    """The aims of the changes that are neither dropped nor owned."""
    return _Aims((number, _aim(plan, number)) for number in _numbers(plan) if is_independent(plan, number))

@_kept
def dependents(plan, an_owner):
    """The aims of the changes that a change owns, moved into its payload."""
    owned = [number for number in _numbers(plan) if owner(plan, number) == an_owner] if has_stage(plan, an_owner) else []
    target = aim_path(_aim(plan, an_owner))
    return _Aims((number, moved_aim(_aim(plan, number), target, ArePlaces(plan, an_owner))) for number in owned)

def payload_rewritten(plan, number, aims):
    """The payload as it was recorded, each element rewritten by such aims."""
    return [rewritten(subtree(element), aims, origin(address(element), number), lambda inner: given(plan, inner))
            for element in plan.changes[number].payload]

@_kept
def given(plan, number):
    """The elements that a change adds: its payload, rewritten by its dependents."""
    return payload_rewritten(plan, number, dependents(plan, number))

def tree_rewritten(plan, aims):
    """The old tree, rewritten by some changes."""
    trees = rewritten_whole(plan.root.tree, aims, origin(address(plan.root), None), lambda number: given(plan, number))
    return trees[0]

@_kept
def new_tree(plan):
    """The old tree, rewritten by the independent changes."""
    return tree_rewritten(plan, independents(plan))

def stage_tree(plan, done):
    """`new_tree` of only those changes that are done."""
    return tree_rewritten(plan, only(independents(plan), lambda number: number in done))

def stage_payload(plan, number, done):
    return payload_rewritten(plan, number, only(dependents(plan, number), lambda inner: inner in done))[0]

def has_stage(plan, number):
    """Other changes can be carried out in the payload of this one: it replaces a node by a node and is not dropped."""
    return is_keeping(plan, number) and not is_dropped(plan, number)

def TextIsTooLong(plan):
    return text_length(new_tree(plan)) >= length_limit

def BuildRefuses(plan):
    """Why a list of changes is no plan, if it is none."""
    clash = first_clash(plan)
    if clash:
        return "Intersecting %d %d" % clash
    number = _first_unplaced(plan)
    return None if number is None else "MissingMapping %d %d" % (number, owner(plan, number))


# Results

def is_brought(plan, label):
    """An origin names an independent change."""
    return label.change is not None and is_independent(plan, label.change)

def topmost(tree, passes):
    """The paths, in document order, of the elements whose labels pass a test and whose parents' labels do not."""
    holds = {path: passes(part.label) for path, part in _parts(tree)}
    return [path for path, it_holds in holds.items() if it_holds and not (path and holds[parent_path(path)])]

def changed(plan):
    """The elements that come from the payload of an independent change and whose parent does not."""
    return topmost(new_tree(plan), lambda label: is_brought(plan, label))

@_kept
def _copies(plan):
    """`copies_of` for each address that has a copy in the new tree."""
    table = {}
    for path, part in _parts(new_tree(plan)):
        table.setdefault(part.label.address, []).append(path)
    return table

def copies_of(plan, an_address):
    """The paths, in document order, of the elements that were copied from an address."""
    return _copies(plan).get(an_address, [])

def annotated(plan):
    """For each registration in order: its annotation with the paths of the copies of the followed element."""
    return [(annotation, copies_of(plan, followed(plan.mapping, address(element)))) for annotation, element in plan.registrations]

def found_for(plan, annotation):
    return [path for noted, found in annotated(plan) if noted == annotation for path in found]

def stand_in_path(plan, path):
    """The first path of a node that has the kind and the start of an old element, each start counted in its tree."""
    old, new = plan.root.tree, plain(new_tree(plan))
    return next((other for other in node_paths(new)
                 if at(new, other).label == at(old, path).label and start(new, other) == start(old, path)), None)


# The text of a plan

def path_text(path):
    return "/".join(map(str, path)) or "."

def position_text(position):
    return (" first " if isinstance(position, FirstChild) else " after ") + path_text(position.anchor.path)

def what_text(change):
    """What a change does, and where."""
    if fills_gap(change):
        return {"Insert": "insert", "InsertAll": "insert_all"}[change.form] + position_text(change.position)
    if change.form == "ReplaceAll":
        return "replace_all " + path_text(change.first.path) + " " + path_text(change.last.path)
    word = {"Replace": "replace" if change.payload else "delete", "ReplaceWithMany": "replace_with_many"}[change.form]
    return word + " " + path_text(change.first.path)

def fate_text(plan, number):
    if is_dropped(plan, number):
        return ", dropped"
    return "" if owner(plan, number) is None else ", along with %d" % owner(plan, number)

def plan_text(plan):
    return ["%d %s%s" % (number, what_text(plan.changes[number]), fate_text(plan, number)) for number in _numbers(plan)]


# The text of a change, and how many nodes are built

def change_text(change):
    """The text that shows a change, without colours."""
    new = texts(map(subtree, change.payload))
    if change.form in ("Replace", "ReplaceWithMany"):
        return text(subtree(change.first)) + new
    path, index = gap_of(aim(change)) if fills_gap(change) else (parent_path(change.last.path), last_slot(change.last.path) + 1)
    trees = children(at((change.last or change.position.anchor).tree, path))
    return texts(trees[:index]) + new + texts(trees[index:])

def parents(an_aim):
    """The path of the node whose child list an aim alters, if there is one."""
    filled = gap_of(an_aim)
    return [filled[0]] if filled else [parent_path(path) for path in targets(an_aim)[:1] if path]

def staged_aim(plan, number):
    """Where a change aims in the tree in which it is carried out, its owner's payload or the old tree."""
    aims = independents(plan) if is_independent(plan, number) else dependents(plan, owner(plan, number))
    return dict(aims.aims)[number]

def way_length(plan, number):
    """One more than the length of the path of the node whose child list a change alters; 0 for a replaced root."""
    return sum(len(path) + 1 for path in parents(staged_aim(plan, number)))

def touched(tree, some_paths):
    """How many elements of a tree are above one of some paths, or at one."""
    return len({upper for path in some_paths for upper in up_to(path) if at(tree, upper)})

def touched_by(plan):
    """The touched elements of the old tree by the independent changes, and those of every payload by its dependents."""
    trees = [(plan.root.tree, independents(plan))]
    trees += [(subtree(element), dependents(plan, number)) for number in _numbers(plan) for element in plan.changes[number].payload]
    return sum(touched(tree, [path for _, an_aim in aims.aims for path in parents(an_aim)]) for tree, aims in trees)


# Text edits

class TextPiece(NamedTuple):
    """A text that stands in the place of what is from `first` up to `stop` in the old text."""
    first: int
    stop: int
    text: bytes

def number_token(number):
    return [_token(number, b"")]

def in_text_order(plan):
    """The changes without an owner, from left to right: the numbers in the tree that is rewritten with `number_token`."""
    trees = rewritten_whole(plan.root.tree, independents(plan), lambda path, kind: None, number_token)
    return [label for tree in trees for label, _ in tokens(tree) if label is not None]

def offset(plan, number):
    """Where a change starts: at its gap, or at the start of the first element that it replaces."""
    an_aim, old = _aim(plan, number), plan.root.tree
    begin = start(old, aim_path(an_aim))
    return begin + text_length(at(old, aim_path(an_aim))) if an_aim.form == "after" else begin

def old_text(plan, number):
    return b"".join(text(at(plan.root.tree, path)) for path in targets(_aim(plan, number)))

def text_piece(plan, number):
    begin = offset(plan, number)
    return TextPiece(begin, begin + len(old_text(plan, number)), texts(given(plan, number)))

def text_pieces(plan):
    """The pieces of all changes in `in_text_order` that alter something."""
    return [text_piece(plan, number) for number in in_text_order(plan) if texts(given(plan, number)) != old_text(plan, number)]

def applied(old, pieces, gone=0):
    """The text that pieces make of an old text, of which the first `gone` bytes are gone."""
    made = b""
    for piece in pieces:
        made, gone = made + old[gone:piece.first] + piece.text, piece.stop
    return made + old[gone:]

def new_start(pieces, index):
    """Where a piece starts in the old text, less the bytes that those before it take away, and those that they put in."""
    return pieces[index].first + sum(len(piece.text) - (piece.stop - piece.first) for piece in pieces[:index])

def inverted(pieces, old):
    """In the place of what each piece puts in stands again what it takes away."""
    begins = [new_start(pieces, index) for index in range(len(pieces))]
    return [TextPiece(begin, begin + len(piece.text), old[piece.first:piece.stop]) for begin, piece in zip(begins, pieces)]

def IsTrimmed(piece, old):
    """A piece without the characters with which what it takes away and what it puts in both begin, and then without those with which both end."""
    away, put = old[piece.first:piece.stop].decode(), piece.text.decode()
    ahead = len(commonprefix([away, put]))
    away, put, first = away[ahead:], put[ahead:], piece.first + len(put[:ahead].encode())
    behind = len(commonprefix([away[::-1], put[::-1]]))
    away, put = away[:len(away) - behind], put[:len(put) - behind]
    return TextPiece(first, first + len(away.encode()), put.encode())

def _trimmed(pieces, old):
    return [piece for piece in (IsTrimmed(piece, old) for piece in pieces) if piece.first < piece.stop or piece.text]

def holds(pieces, begin, end, index):
    return new_start(pieces, index) <= begin <= end <= new_start(pieces, index) + len(pieces[index].text)

def cursor(pieces, begin, end):
    """The first piece whose text holds a range of the new text, and the range within it, if there is such a piece."""
    held = [index for index in range(len(pieces)) if holds(pieces, begin, end, index)]
    return (held[0], begin - new_start(pieces, held[0]), end - new_start(pieces, held[0])) if held else None

def element_cursor(plan, path):
    """The range of a new element's text, and where the text of one piece holds it."""
    new = plain(new_tree(plan))
    begin, end = start(new, path), start(new, path) + text_length(at(new, path))
    return begin, end, cursor(text_pieces(plan), begin, end)

def line_starts(written):
    return [0] + [index + 1 for index, byte in enumerate(written) if byte == ord("\n")]

def IsAt(written, place):
    """The last line that starts at an offset or before it, and how many bytes the offset is behind that start."""
    line = sum(begin <= place for begin in line_starts(written)) - 1
    return line, place - line_starts(written)[line]

def wide_len(written):
    """How many units of UTF-16 a text has."""
    return len(written.decode().encode("utf-16-le")) // 2

def IsWide(written, place):
    """The column of an offset in units of UTF-16."""
    return wide_len(written[place - IsAt(written, place)[1]:place])


# Orders

@_kept
def undropped(plan):
    return [number for number in _numbers(plan) if not is_dropped(plan, number)]

def owned_first(plan, first, second):
    return owner(plan, first) == second

def last_in_gap(first, second):
    """Of two inserts into one gap, the one that comes last there."""
    return gap_order([first, second])[-1]

@_kept
def gap_first(plan, first, second):
    return same_gap(_aim(plan, first), _aim(plan, second)) and last_in_gap(first, second) == first

@_kept
def anchor_token(plan, number):
    """The path of the token that an insert directly follows, if any."""
    position = plan.changes[number].position
    return position.anchor.path if isinstance(position, After) and IsToken(position.anchor) else None

def token_first(plan, first, second):
    return anchor_token(plan, first) is not None and anchor_token(plan, first) in targets(_aim(plan, second))

@_kept
def comes_first(plan, first, second):
    return first != second and (owned_first(plan, first, second) or gap_first(plan, first, second) or token_first(plan, first, second))

def ListsEachOnce(plan, order):
    return sorted(order) == undropped(plan)

def index_in(order, number):
    return order.index(number) if number in order else len(order)

def respects(plan, order, test):
    """Where a test puts one undropped change before another, the order does too."""
    return all(index_in(order, first) < index_in(order, second)
               for first, second in itertools.permutations(undropped(plan), 2) if test(plan, first, second))

def OrderRefuses(plan, order):
    """Why an order is not allowed: the first of the four that does not hold, each tested over the whole order."""
    if not ListsEachOnce(plan, order):
        return "NotEachOnce"
    refusals = (("OwnerTooEarly", owned_first), ("GapOutOfOrder", gap_first), ("TokenTooEarly", token_first))
    return next((name for name, test in refusals if not respects(plan, order, test)), None)

def IsAllowed(plan, order):
    return OrderRefuses(plan, order) is None

def is_ready(plan, done, number):
    """A change may be the next one: it is neither dropped nor done, and every change that comes first is done."""
    firsts = [first for first in undropped(plan) if comes_first(plan, first, number)]
    return not is_dropped(plan, number) and number not in done and all(first in done for first in firsts)

def document_path(plan, number):
    """The path of the slot after an insert's gap, or of the first element that a replacement replaces."""
    filled = gap_of(_aim(plan, number))
    return filled[0] + (filled[1],) if filled else aim_path(_aim(plan, number))

def stands_ahead(plan, first, second):
    """One change comes before another by `document_path`; at one path an insert comes before a replacement."""
    one, other = document_path(plan, first), document_path(plan, second)
    return precedes(one, other) or (one == other and fills_gap(plan.changes[first]) and not fills_gap(plan.changes[second]))

def default_first(plan, first, second):
    """The second change is ahead of the first; or neither is ahead of the other, and the first comes last in their gap."""
    if stands_ahead(plan, second, first):
        return True
    return not stands_ahead(plan, first, second) and gap_first(plan, first, second)

def IsDefaultOrder(plan):
    """The default order: each undropped change after all those that `default_first` puts before it."""
    changes = undropped(plan)
    return sorted(changes, key=lambda number: sum(default_first(plan, other, number) for other in changes if other != number))


# Recording

class Editor:
    """The root that is edited, the changes so far, the registrations, and the pairs of the mapping, the newest first."""

    def __init__(self, root):
        self.root, self.changes, self.registrations, self.pairs, self.replaces = root, [], [], [], {}

def plan_of(editor):
    return Plan(editor.root, editor.changes, editor.registrations, Mapping(editor.pairs))

class RecordCall(NamedTuple):
    """A call that records a change: an insert has a position, other calls the first and the last element that they replace or delete."""
    form: str
    position: Optional[Tuple]
    first: Optional[Element]
    last: Optional[Element]
    elements: Tuple[Element, ...] = ()

def refusal(root, call):
    """Why a call is refused, if it is: the first line that fits in the table of refusals."""
    if call.position is not None:
        return None if is_native(root, call.position.anchor) else "Foreign"
    if not (is_native(root, call.first) and is_native(root, call.last)):
        return "Foreign"
    if not is_range(call.first, call.last):
        return "BadRange"
    if is_root(call.first) and call.form in ("Deleting", "DeletingAll"):
        return "DeletesRoot"
    return "RootReplacement" if is_root(call.first) and not is_one_node(call.elements) else None

def taken_up(editor, element, exchanged):
    """The first `Replace` of an element is exchanged, or there is one more at the end if there is none."""
    number = editor.replaces.setdefault(address(element), len(editor.changes))
    before_call = editor.changes[number] if number < len(editor.changes) else None
    editor.changes[number:number + 1] = [exchanged(before_call)]

def delete(editor, element):
    taken_up(editor, element, lambda _: _replacement("Replace", element, element, []))

def replace(editor, element, new):
    """The first `Replace` of the element gets the new element, but a deletion stays a deletion."""
    taken_up(editor, element, lambda first: _replacement("Replace", element, element, [new] if first is None or first.payload else []))

def recorded(editor, call):
    """What a call that is not refused does with the list of changes."""
    if call.position is not None:
        editor.changes.append(_insert({"Inserting": "Insert", "InsertingAll": "InsertAll"}[call.form], call.position, call.elements))
    elif call.form == "Deleting" or (call.form == "DeletingAll" and have_one_path(call.first, call.last)):
        delete(editor, call.first)
    elif call.form == "Replacing":
        replace(editor, call.first, call.elements[0])
    elif have_one_path(call.first, call.last):
        editor.changes.append(_replacement("ReplaceWithMany", call.first, call.last, call.elements))
    else:
        editor.changes.append(_replacement("ReplaceAll", call.first, call.last, call.elements))


# An element of a separated list

def if_token_of(element, kind):
    """An element, if there is one and it is a token of this kind."""
    return element if element and IsToken(element) and subtree(element).label == kind else None

def past_whitespace(element, sibling):
    """The sibling one step from an element. If that is a WHITESPACE token, the sibling one step further."""
    beside = sibling(element)
    return sibling(beside) if if_token_of(beside, b"WHITESPACE") else beside

def with_whitespace_after(element):
    return if_token_of(next_sibling(element), b"WHITESPACE") or element

def removed_run(element, kind):
    """The first and the last sibling that are deleted."""
    following = if_token_of(past_whitespace(element, next_sibling), kind)
    if following:
        return (element, with_whitespace_after(following))
    return (if_token_of(past_whitespace(element, previous_sibling), kind) or element, element)


# Dialects

SYNED, WIDE = "syned", "wide"

def bytes_in(dialect):
    """How many bytes a script has at most."""
    return {SYNED: 1048576, WIDE: 4294967295}[dialect]

def depth_in(dialect):
    """How many parentheses may be open at once; in the wide dialect as many as a script has bytes."""
    return {SYNED: 200, WIDE: bytes_in(WIDE)}[dialect]

def _want_wide(state):
    """A word of the wide dialect alone."""
    if state.dialect != WIDE:
        raise Bad


# Tree expressions

KINDS = frozenset(b"""
WHITESPACE COMMENT DOC_COMMENT SEMICOLON COMMA L_PAREN R_PAREN L_CURLY R_CURLY L_BRACK R_BRACK L_ANGLE R_ANGLE AMP POUND UNDERSCORE EQ
FAT_ARROW THIN_ARROW PLUS IDENT INT_NUMBER LIFETIME_IDENT TRUE_KW LET_KW FN_KW USE_KW SOURCE_FILE ARG_LIST LITERAL TUPLE_EXPR BIN_EXPR
BLOCK_EXPR STMT_LIST ITEM_LIST LET_STMT EXPR_STMT IDENT_PAT WILDCARD_PAT NAME NAME_REF MATCH_ARM MATCH_ARM_LIST PARAM_LIST RET_TYPE
TUPLE_TYPE ATTR LIFETIME GENERIC_ARG_LIST USE CONST ENUM EXTERN_BLOCK EXTERN_CRATE FN IMPL MACRO_CALL MACRO_DEF MACRO_RULES MODULE STATIC
STRUCT TRAIT TYPE_ALIAS UNION""".split())
ESCAPES = {b"\n": b"\\n", b"\r": b"\\r", b"\t": b"\\t", b'"': b'\\"', b"\\": b"\\\\"}
WRITTEN = {written: byte for byte, written in ESCAPES.items()}
PIECE = re.compile(rb'(?P<space> +)|\((?P<node>\w+)|(?P<end>\))|(?P<token>\w+)"(?P<text>(?:[^"\\]|\\[nrt"\\])*)"')

def name_in(kinds, name):
    """Whether a kind has this name: one of the 65, or one that was given it."""
    return name in KINDS or name in kinds

def next_kind(kinds):
    """The number of the kind that is given the next name."""
    return len(KINDS) + len(kinds)

def escaped(written):
    return re.sub(rb'[\n\r\t"\\]', lambda match: ESCAPES[match.group()], written)

def tree_text(tree):
    """The tree expression of a tree, one space before each element."""
    if is_token(tree):
        return tree.label + b'"' + escaped(tree.bytes) + b'"'
    return b"(" + b"".join([tree.label] + [b" " + tree_text(child) for child in tree.children]) + b")"

def IsLineTree(expression, dialect=SYNED, kinds=()):
    """The tree that this is an expression of, with only spaces between elements, of the 65 kinds and these, and nested at most as deep as the
    dialect allows; None if there is none."""
    nodes, place = [], 0
    while place < len(expression):
        piece = PIECE.match(expression, place)
        if not piece or not name_in(kinds, piece["node"] or piece["token"] or b"NAME"):
            return None
        place = piece.end()
        if piece["node"]:
            nodes.append((piece["node"], []))
        elif not nodes:
            return None
        elif piece["token"]:
            nodes[-1][1].append(_token(piece["token"], re.sub(rb"\\.", lambda match: WRITTEN[match.group()], piece["text"])))
        elif piece["end"]:
            made = node(*nodes.pop())
            if not nodes:
                return made if place == len(expression) else None
            nodes[-1][1].append(made)
        if len(nodes) > depth_in(dialect):
            return None
    return None


# Lines of a script

class Bad(Exception):
    """A line is bad."""

class Refused(Exception):
    """The call of a line is refused."""

def line_text(line):
    """A line without the carriage return at its end, if it has one."""
    return line[:-1] if line.endswith(b"\r") else line

def fields(line):
    return [word for word in line_text(line).split(b" ") if word]

def is_blank(line):
    return not fields(line) or fields(line)[0].startswith(b"#")

def IsName(field):
    return re.fullmatch(rb"[A-Za-z]\w{0,31}", field) is not None

def _name(field):
    if not IsName(field):
        raise Bad
    return field

def _number(field):
    """A number below 2^64, in decimal digits."""
    if not re.fullmatch(rb"0*[0-9]{1,20}", field) or int(field.lstrip(b"0") or b"0") >= 2 ** 64:
        raise Bad
    return int(field.lstrip(b"0") or b"0")


# What scripts mean

class State:
    """The dialect, the names that kinds were given, the number of the next tree, the roots, the annotation words by their first use, what is
    edited, and what its answer shows besides."""

    def __init__(self, dialect):
        self.dialect, self.kinds = dialect, {}
        self.number, self.roots, self.words, self.editor, self.order, self.details = 1, {}, [], None, None, set()

    def with_root(self, field, tree):
        """One more root, in a tree with the next number."""
        root = Element(self.number, tree, ())
        self.number += 1
        self.roots[field] = root
        return root

def element_in(state, field):
    """The element that a reference leads to."""
    parts = field.split(b"/")
    root = state.roots.get(_name(parts[0]))
    element = element_at(root, tuple(map(_number, parts[1:]))) if root else None
    if not element or not IsElement(element):
        raise Bad
    return element

def node_in(state, field):
    element = element_in(state, field)
    if not IsNode(element):
        raise Bad
    return element

def elements_in(state, some_fields):
    return tuple(element_in(state, field) for field in some_fields)

def position_in(state, word, field):
    """The position that a line names; none beside a root."""
    if word in (b"first", b"last"):
        element = node_in(state, field)
        return FirstChild(element) if word == b"first" else last_child_of(element)
    if word not in (b"before", b"after"):
        raise Bad
    position = (before if word == b"before" else after)(element_in(state, field))
    if position is None:
        raise Bad
    return position

def call_in(state, said):
    """The call that a line makes to record a change. One new element has a call of its own, and so has a range without any."""
    word, rest = said[0], said[1:]
    if word == b"insert" and len(rest) >= 2:
        elements = elements_in(state, rest[2:])
        return RecordCall("Inserting" if len(elements) == 1 else "InsertingAll", position_in(state, *rest[:2]), None, None, elements)
    if word == b"delete" and len(rest) == 1:
        return RecordCall("Deleting", None, *elements_in(state, rest * 2))
    if word == b"replace" and rest:
        target, *elements = elements_in(state, rest)
        return RecordCall("Replacing" if len(elements) == 1 else "ReplacingWithMany", None, target, target, tuple(elements))
    if word == b"range" and len(rest) >= 2:
        first, last, *elements = elements_in(state, rest)
        return RecordCall("ReplacingAll" if elements else "DeletingAll", None, first, last, tuple(elements))
    if word == b"remove" and len(rest) == 2 and name_in(state.kinds, rest[1]):
        return RecordCall("DeletingAll", None, *removed_run(element_in(state, rest[0]), rest[1]))
    raise Bad

def IsFree(kinds, name):
    """A name is spelled as one of a kind, no kind has it, and there is a next kind."""
    return re.fullmatch(rb"\w+", name) and not name_in(kinds, name) and next_kind(kinds) < 2 ** 16

def KindsStep(state, names):
    """What a line `kinds` does, which comes before any tree."""
    _want_wide(state)
    if state.number != 1:
        raise Bad
    for name in names:
        if not IsFree(state.kinds, name):
            raise Bad
        state.kinds[name] = next_kind(state.kinds)

def tree_step(state, line):
    """What a line `tree` does. No tree of a line is too long."""
    parts = re.fullmatch(rb" *tree +([^ ]+) +([^ ].*?) *", line_text(line), re.DOTALL)
    tree = IsLineTree(parts[2], state.dialect, state.kinds) if parts else None
    if not tree or _name(parts[1]) in state.roots:
        raise Bad
    state.with_root(parts[1], tree)

def shifted(shift, tree):
    """A tree a level further in or out: each WHITESPACE token with a newline has four spaces more at its end, or its lines lose as many."""
    if not is_token(tree):
        return node(tree.label, [shifted(shift, child) for child in tree.children])
    first, *rest = tree.bytes.split(b"\n")
    if tree.label != b"WHITESPACE" or not rest:
        return tree
    return _token(tree.label, tree.bytes + b"    " if shift == b"indent" else b"\n".join([first] + [line.removeprefix(b"    ") for line in rest]))

def shift_step(state, shift, rest):
    """What a line `indent` or `dedent` does."""
    _want_wide(state)
    if len(rest) != 2 or _name(rest[0]) in state.roots:
        raise Bad
    state.with_root(rest[0], shifted(shift, subtree(node_in(state, rest[1]))))

def edit_step(state, rest):
    """What a line `edit` does: the root is the node's own, or one of a new tree where the node has a parent."""
    if len(rest) != 2 or state.editor or _name(rest[0]) in state.roots:
        raise Bad
    edited = node_in(state, rest[1])
    root = edited if is_root(edited) else state.with_root(rest[0], subtree(edited))
    state.roots[rest[0]] = root
    state.editor = Editor(root)

def MapStep(state, rest):
    if len(rest) != 3:
        raise Bad
    parent, original, its_copy = [node_in(state, field) for field in rest]
    why = RefusesPair(parent, original, its_copy)
    if why:
        raise Refused(why)
    state.editor.pairs.insert(0, (address(original), address(its_copy)))

def WrapsStep(state, rest):
    """What a line `wrap` does. Its new tree is younger than any, and never too long."""
    _want_wide(state)
    if b"|" not in rest or len(rest) < 3 or not name_in(state.kinds, rest[1]):
        raise Bad
    bar, wrapped = rest.index(b"|", 2), node_in(state, rest[0])
    first, last = elements_in(state, rest[2:bar]), elements_in(state, rest[bar + 1:])
    if not is_native(state.editor.root, wrapped):
        raise Refused("Foreign")
    new = Element(state.number, node(rest[1], [subtree(element) for element in (*first, wrapped, *last)]), ())
    state.number += 1
    state.editor.pairs.insert(0, (address(wrapped), (new.number, (len(first),))))
    recorded(state.editor, RecordCall("Replacing", None, wrapped, wrapped, (new,)))

def note_step(state, rest):
    if len(rest) != 2:
        raise Bad
    word, element = _name(rest[0]), element_in(state, rest[1])
    if word not in state.words:
        state.words.append(word)
    state.editor.registrations.append((state.words.index(word) + 1, element))

def order_step(state, rest):
    if state.order is not None:
        raise Bad
    state.order = list(map(_number, rest))

def show_step(state, rest):
    _want_wide(state)
    if len(rest) != 1 or rest[0] not in (b"edits", b"tree", b"ranges"):
        raise Bad
    state.details.add(rest[0])

def record_step(state, call):
    why = refusal(state.editor.root, call)
    if why:
        raise Refused(why)
    recorded(state.editor, call)

def Steps(state, line):
    """What a line does that does not end the script."""
    said = fields(line)
    if said[0] == b"kinds":
        return KindsStep(state, said[1:])
    if said[0] == b"tree":
        return tree_step(state, line)
    if said[0] == b"edit":
        return edit_step(state, said[1:])
    if said[0] in (b"indent", b"dedent"):
        return shift_step(state, *said[:1], said[1:])
    if not state.editor:
        raise Bad
    steps = {b"map": MapStep, b"wrap": WrapsStep, b"note": note_step, b"order": order_step, b"show": show_step}
    return steps[said[0]](state, said[1:]) if said[0] in steps else record_step(state, call_in(state, said))

def lines_in(script):
    """What stands before each newline, and the rest, unless that is empty."""
    lines = script.split(b"\n")
    return lines if lines[-1] else lines[:-1]

class Outcome(NamedTuple):
    """How a script ends: an edit, if no refusal and no number of a bad line is there."""
    bad_line: Optional[int] = None
    refusal: Optional[str] = None
    plan: Optional[Plan] = None
    words: Tuple = ()
    order: Optional[list] = None
    details: frozenset = frozenset()

def EndRefuses(plan, order):
    """Why `finish` does not carry the changes out: the plan comes first, then the order, then the new tree."""
    return BuildRefuses(plan) or (OrderRefuses(plan, order) if order is not None else None) or ("TooLong" if TextIsTooLong(plan) else None)

@lru_cache(maxsize=1)
def MeansFor(dialect, script):
    """How a script of a dialect ends. After `finish` the first line that is not blank is bad, and without one the line after the last."""
    state, lines = State(dialect), lines_in(script)
    for number, line in enumerate(lines, 1):
        try:
            if not is_blank(line) and (fields(line) != [b"finish"] or not state.editor):
                Steps(state, line)
            elif not is_blank(line):
                further = next((later for later, text_after in enumerate(lines[number:], number + 1) if not is_blank(text_after)), None)
                plan = plan_of(state.editor)
                return Outcome(further) if further else Outcome(None, EndRefuses(plan, state.order), plan, state.words, state.order, state.details)
        except Bad:
            return Outcome(number)
        except Refused as why:
            return Outcome(None, str(why))
    return Outcome(len(lines) + 1)

def Means(script):
    return MeansFor(SYNED, script)


# Answers of `syned`

def IsNoScript(script, dialect=SYNED):
    """Bytes that are too many for a script of a dialect, or not UTF-8."""
    try:
        return len(script) > bytes_in(dialect) or script.decode("utf-8") is None
    except UnicodeDecodeError:
        return True

def place_of(new, path, ranges):
    """A path in the new tree; where ranges are shown, also where its element begins and ends."""
    begin = start(new, path) if ranges else None
    return path_text(path) + ("@%d..%d" % (begin, begin + text_length(at(new, path))) if ranges else "")

def places_text(plan, some_paths, ranges=False):
    return "".join(" " + place_of(new_tree(plan), path, ranges) for path in some_paths)

def edit_text(plan, words, details=frozenset()):
    """The printed edit: the new text, escaped, the changed places, the notes, and what is shown besides."""
    ranges = b"ranges" in details
    notes = ["note %s%s\n" % (word.decode(), places_text(plan, found_for(plan, number), ranges)) for number, word in enumerate(words, 1)]
    edits = [b'edit %d %d "%s"\n' % (edit.first, edit.stop, escaped(edit.text)) for edit in text_pieces(plan)] if b"edits" in details else []
    tree = [b"tree " + tree_text(plain(new_tree(plan))) + b"\n"] if b"tree" in details else []
    places = "".join(["changed%s\n" % places_text(plan, changed(plan), ranges)] + notes).encode()
    return b"".join([b'text "', escaped(text(new_tree(plan))), b'"\n', places, *edits, *tree])

def IsAnswerFor(dialect, script):
    """The exit status of a run, and what it prints."""
    outcome = Outcome(0) if IsNoScript(script, dialect) else MeansFor(dialect, script)
    if outcome.bad_line is not None:
        return 2, b"bad script line %d\n" % outcome.bad_line
    if outcome.refusal:
        return 1, b"refused " + outcome.refusal.encode() + b"\n"
    return 0, edit_text(outcome.plan, outcome.words, outcome.details)

# The program

if __name__ == "__main__":
    if sys.argv[1:] not in ([], [WIDE]):
        print(__doc__)
        sys.exit(0 if sys.argv[1:] == ["--help"] else 2)
    STATUS, ANSWER = IsAnswerFor(WIDE if sys.argv[1:] else SYNED, sys.stdin.buffer.read())
    sys.stdout.buffer.write(ANSWER)
    sys.exit(STATUS)
