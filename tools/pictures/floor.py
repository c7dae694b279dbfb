"""Draws the floor of a building: rooms in a row in the script's order, doors, and in each room its boxes and the robot.

A script doesn't say how rooms lie. A door between neighbours of the row is a passage between them; any other has a corridor of its
own below the rooms. Each thing has a line of its own in its room, on the side of the door that it is next to.
"""
from pictures.drawing import HEIGHT, PAD, columns, label, svg, width

SIGN = 20  # the width of a thing's sign before its name
LANE = 2 * HEIGHT + PAD  # the height of a corridor
PASSAGE = 3 * HEIGHT + PAD  # the height that a passage takes


class State:
    """The facts of a building, by thing."""

    def __init__(self, building, facts):
        pairs = [fact for fact in facts if fact.predicate in ('INROOM', 'NEXTTO')]
        self.rooms = {fact.arguments[0]: fact.arguments[1] for fact in pairs if fact.predicate == 'INROOM'}
        self.next = {fact.arguments[0]: fact.arguments[1] for fact in pairs if fact.predicate == 'NEXTTO'}
        opened = {fact.arguments[0] for fact in facts if fact.predicate == 'OPENED'}
        self.doors = {door: door in opened for door in building.doors}
        self.things = [thing for thing in building.boxes if self.next.get('ROBOT') != thing]
        self.things += [self.next['ROBOT']] if self.next.get('ROBOT') in building.boxes else []
        self.things.append('ROBOT')

    def name(self, thing):
        """A thing with what it is next to."""
        return f'{thing} next to {self.next[thing]}' if thing in self.next else thing

    def door(self, door):
        """A door with how it is."""
        return f'{door} {"open" if self.doors[door] else "closed"}'

    def inside(self, room):
        """What is in a room, the robot last."""
        return [thing for thing in self.things if self.rooms.get(thing) == room]

    def words(self):
        """The state in words."""
        return '; '.join([f'{thing} in {self.rooms[thing]}' + (f' next to {self.next[thing]}' if thing in self.next else '')
                          for thing in reversed(self.things)] + [self.door(door) for door in self.doors])


class Layout:
    """Where the rooms and doors of a building lie, so that each of some states finds room."""

    def __init__(self, building, states):
        self.building = building
        names = building.rooms + [state.name(thing) for state in states for thing in state.things]
        self.wide = max(map(width, names)) + SIGN + 2 * PAD
        self.between = [[] for _ in building.rooms]  # the doors from each room to the next of the row
        self.far = []
        for door, rooms in building.doors.items():
            one, other = sorted(map(building.rooms.index, rooms))
            (self.between[one] if other == one + 1 else self.far).append(door)
        lines = max(len(state.inside(room)) for state in states for room in building.rooms)
        self.high = max([(lines + 1) * HEIGHT + 2 * PAD] + [len(doors) * PASSAGE + PAD for doors in self.between])
        self.xs = [PAD]
        for doors in self.between:
            gap = max([width(f'{door} closed') + 2 * PAD for door in doors] + [3 * PAD])
            self.xs.append(self.xs[-1] + self.wide + gap)
        self.size = (self.xs[-2] + self.wide + PAD, PAD + self.high + len(self.far) * LANE + PAD)

    def side(self, state, thing):
        """The side of the room on which a thing lies: that of its door, or of the door of the box that the robot is next to."""
        at = state.next.get(thing)
        at = state.next.get(at, at)
        room = self.building.rooms.index(state.rooms[thing])
        return 'end' if at in self.between[room] else 'start' if room and at in self.between[room - 1] else 'middle'


def layout_of(story):
    """The layout of a story's building for all its states, or None where there is none."""
    building = story.script and story.script.building
    states = [State(building, facts) for facts in set(story.states())] if building else []
    return Layout(building, states) if states else None


def room(layout, number, state):
    """A room with what is in it."""
    name, x = layout.building.rooms[number], layout.xs[number]
    yield f'<rect class="box" x="{x:.0f}" y="{PAD}" width="{layout.wide:.0f}" height="{layout.high:.0f}"/>'
    yield label(x + layout.wide / 2, PAD + HEIGHT, name)
    for line, thing in enumerate(state.inside(name), 2):
        text, y = state.name(thing), PAD + line * HEIGHT
        rest = layout.wide - SIGN - 2 * PAD - width(text)
        left = x + PAD + {'start': 0, 'middle': rest / 2, 'end': rest}[layout.side(state, thing)]
        yield (f'<circle class="thing" cx="{left + 8:.0f}" cy="{y - 5:.0f}" r="6"/>' if thing == 'ROBOT' else
               f'<rect class="thing" x="{left + 2:.0f}" y="{y - 11:.0f}" width="12" height="12"/>')
        yield label(left + SIGN, y, text, 'name', 'start')


def leaf(x, y, is_open):
    """A door across its way, or beside it where it is open."""
    ends = (x - 9, y - 9, x + 9, y - 9) if is_open else (x, y - 9, x, y + 9)
    return '<line class="door" x1="{:.0f}" y1="{:.0f}" x2="{:.0f}" y2="{:.0f}"/>'.format(*ends)


def passages(layout, number, state):
    """The doors from a room to the next of the row."""
    left, right = layout.xs[number] + layout.wide, layout.xs[number + 1]
    for line, door in enumerate(layout.between[number]):
        y = 2 * PAD + line * PASSAGE + HEIGHT
        yield f'<rect class="box" x="{left:.0f}" y="{y - 9:.0f}" width="{right - left:.0f}" height="18"/>'
        yield leaf((left + right) / 2, y, state.doors[door])
        yield label((left + right) / 2, y + 9 + HEIGHT - 2, state.door(door), 'name')


def corridors(layout, state):
    """The doors between rooms that aren't neighbours: first all ways, then the names over them."""
    ports = [[door for door in layout.far if name in layout.building.doors[door]] for name in layout.building.rooms]
    ways, names = [], []
    for lane, door in enumerate(layout.far, 1):
        y = PAD + layout.high + lane * LANE - PAD
        ends = []
        for number in sorted(map(layout.building.rooms.index, layout.building.doors[door])):
            ends.append(layout.xs[number] + layout.wide * (ports[number].index(door) + 1) / (len(ports[number]) + 1))
        middle, long = sum(ends) / 2, columns(state.door(door))
        ways.append(f'<path class="path" d="M{ends[0]:.0f} {PAD + layout.high:.0f}V{y:.0f}H{ends[1]:.0f}V{PAD + layout.high:.0f}"/>')
        names.append(f'<rect class="under" x="{middle - long * 4 - 4:.0f}" y="{y - 31:.0f}" width="{long * 8 + 8}" height="{HEIGHT}"/>')
        names += [leaf(middle, y, state.doors[door]), label(middle, y - 17, state.door(door), 'name')]
    return ways + names


def parts_of(layout, state):
    """The parts of the picture of a state."""
    parts = []
    for number in range(len(layout.building.rooms)):
        parts += room(layout, number, state)
        parts += passages(layout, number, state)
    return parts + corridors(layout, state)


def picture(layout, state, title):
    """The floor of one state."""
    return svg(*layout.size, f'{title}: {state.words()}', parts_of(layout, state))


def captions(steps):
    """What is said of the facts before and after each step."""
    return ['at the start'] + [f'after step {number}, {step}' for number, step in enumerate(steps, 1)]


def strip(layout, states, titles, name):
    """The floors of several states, one below the other, as a picture that stands alone."""
    wide, high = layout.size
    parts = []
    for number, (state, title) in enumerate(zip(states, titles)):
        parts.append(f'<g transform="translate(0 {number * (high + HEIGHT + PAD):.0f})">')
        parts += [label(PAD, HEIGHT, title, anchor='start'), f'<g transform="translate(0 {HEIGHT})">', *parts_of(layout, state), '</g></g>']
    wide = max([wide] + [width(title) + 2 * PAD for title in titles])
    return svg(wide, len(states) * (high + HEIGHT + PAD), f'the floor in {name}, step by step', parts, ())
