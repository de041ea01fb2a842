#!/usr/bin/env python3
"""The story of six ports, worked out by a model that was written from the papers alone.

The upper part models document 01 over IEEE Std 802.3ad-2000, Clause 43: a record for each port, the machines by the
standard's names, the eight calls. Where the papers leave a choice it takes the reading that was
recommended for the project, which docs/DECISIONS.md gives in its own words; its author saw neither that file nor the code;
the memory is laid out as the design fixes it. The lower part performs the calls of the story and prints its lines.
Nothing here is taken from the code that is compared with these lines. Churn detection is there so that the memory is laid out
as in the library; no line of the story tells of it, and it is no second witness: its author knew the code.
"""
from collections import namedtuple
from enum import IntEnum
from struct import Struct, pack
from types import SimpleNamespace

# ------------------------------------------------ names and numbers of the standard
Receive = IntEnum('Receive', 'INITIALIZE PORT_DISABLED EXPIRED LACP_DISABLED DEFAULTED CURRENT', start=0)   # 43.4.12
Periodic = IntEnum('Periodic', 'NO_PERIODIC FAST_PERIODIC SLOW_PERIODIC PERIODIC_TX', start=0)              # 43.4.13
Mux = IntEnum('Mux', 'DETACHED WAITING ATTACHED COLLECTING DISTRIBUTING', start=0)                          # 43.4.15
Churn = IntEnum('Churn', 'NO_CHURN MONITOR CHURN', start=0)                                                 # 43.4.17

# The state octet, bit 0 upward (43.4.2.2).
ACTIVITY, TIMEOUT, AGGREGATION, SYNCHRONIZATION, COLLECTING, DISTRIBUTING, DEFAULTED, EXPIRED = 1, 2, 4, 8, 16, 32, 64, 128

# Times of 43.4.4 in ticks of a tenth of a second.
FAST_PERIODIC_TIME, SLOW_PERIODIC_TIME, SHORT_TIMEOUT_TIME, LONG_TIMEOUT_TIME, AGGREGATE_WAIT_TIME = 10, 300, 30, 900, 20
CHURN_DETECTION_TIME = 600

FRAME = 124                                 # octets of a sent frame, without FCS
SLOW_PROTOCOLS = bytes.fromhex('0180C2000002')
NO_SEND = 255                               # a free place among the ages of sends
OLDEST_AGE = 10                             # of a send that counts, in ticks (request M-101)

HEADER, RECORD, BLOCK = Struct('>BH6sH'), Struct('>9B2HB3B6s2H15s15s'), Struct('>H6sHHHB')      # 11, 57, 15 octets
MONITORS = Struct('>2B2H2I')                # 14 octets: states, timers and counts, the actor's before the partner's

def with_bits(state, bits, value): return state | bits if value else state & ~bits

class Info(namedtuple('Info', 'system_priority system key port_priority port state')):
    """An information block: five numbers and the state octet."""
    def octets(self): return BLOCK.pack(*self)
    def numbers(self): return self[:5]
    def with_state(self, bits, value): return self._replace(state=with_bits(self.state, bits, value))

def info_of(octets): return Info(*BLOCK.unpack(octets))
NOBODY = info_of(bytes(15))

# The own bits are Activity, Timeout (1 is short) and Aggregation.
Settings = namedtuple('Settings', 'address key port_priority own_bits default')

# ------------------------------------------------ the record, and the table in memory
# A record's fields stand in the order of the memory. LACP_Enabled is 'full', that is full duplex (43.4.8); the own bits
# of the settings are bits 0 to 2 of actor_state. The monitors (M-105) lie behind the records of all ports.
FIELDS = ('receive periodic mux selected aggregator ntt link full actor_state current_while periodic_timer wait_while '
          'ages address key port_priority default partner').split()

class Monitor(namedtuple('Monitor', 'state timer count')):
    """What a churn detection machine keeps."""
    def entered(self, state):
        timer = CHURN_DETECTION_TIME if state == Churn.MONITOR else 0
        return Monitor(state, timer, (self.count + (state == Churn.CHURN)) % 2**32)

class Port(SimpleNamespace):
    """What is kept for a port."""
    def settings(self): return Settings(self.address, self.key, self.port_priority, self.actor_state & 7, self.default)
    def set_actor(self, bits, value): self.actor_state = with_bits(self.actor_state, bits, value)
    def set_partner(self, bits, value): self.partner = self.partner.with_state(bits, value)

    def octets(self):
        *numbers, ages, address, key, priority, default, partner = (getattr(self, name) for name in FIELDS)
        return RECORD.pack(*numbers, *ages, address, key, priority, default.octets(), partner.octets())

    def monitors(self): return MONITORS.pack(*(x for pair in zip(self.actor_churn, self.partner_churn) for x in pair))

class Table(namedtuple('Table', 'system_priority system collector_max_delay ports')):
    def numbered(self): return enumerate(self.ports, 1)

    def says_of_itself(self, n):
        """The actor block of port n."""
        p = self.ports[n - 1]
        return Info(self.system_priority, self.system, p.key, p.port_priority, n, p.actor_state)

def table_size(count): return HEADER.size + (RECORD.size + MONITORS.size) * count if 1 <= count <= 32 else 0

def in_range(octets, monitors, count):
    v = RECORD.unpack(octets)
    highest = 5, 3, 4, 1, count, 1, 1, 1, 255, 900, 300, 20
    watched = all(x <= h for x, h in zip(MONITORS.unpack(monitors), (2, 2, CHURN_DETECTION_TIME, CHURN_DETECTION_TIME)))
    return v[4] >= 1 and all(x <= h for x, h in zip(v, highest)) and all(age <= OLDEST_AGE or age == NO_SEND for age in v[12:15]) and watched

def port_of(octets, monitors):
    v, w = RECORD.unpack(octets), MONITORS.unpack(monitors)
    states, blocks = (Receive(v[0]), Periodic(v[1]), Mux(v[2])), (info_of(v[18]), info_of(v[19]))
    return Port(**dict(zip(FIELDS, (*states, *v[3:12], list(v[12:15]), *v[15:18], *blocks))),
                actor_churn=Monitor(Churn(w[0]), *w[2::2]), partner_churn=Monitor(Churn(w[1]), *w[3::2]))

BLANK = bytes(RECORD.size), bytes(MONITORS.size)

def table_of(memory):
    """The table in the memory, or None: answer 1. The size is exact for the stored count."""
    if len(memory) < HEADER.size or len(memory) != table_size(memory[0]):
        return None
    count, priority, system, delay = HEADER.unpack(memory[:HEADER.size])
    behind = HEADER.size + RECORD.size * count
    records = [memory[at:at + RECORD.size] for at in range(HEADER.size, behind, RECORD.size)]
    monitors = [memory[at:at + MONITORS.size] for at in range(behind, len(memory), MONITORS.size)]
    if all(in_range(*r, count) for r in zip(records, monitors)):
        return Table(priority, system, delay, [port_of(*r) for r in zip(records, monitors)])

def store(table, memory):
    records, monitors = (b''.join(parts) for parts in zip(*((p.octets(), p.monitors()) for p in table.ports)))
    memory[:] = HEADER.pack(len(table.ports), *table[:3]) + records + monitors

# ------------------------------------------------ functions of 43.4.9
def six_fields_agree(a, b):
    """What update_Selected, update_Default_Selected and recordPDU compare: the numbers and Aggregation."""
    return a.numbers() == b.numbers() and a.state & AGGREGATION == b.state & AGGREGATION

def record_pdu(p, me, actor, partner):
    maintained = actor.state & ACTIVITY or me.state & partner.state & ACTIVITY
    agreed = six_fields_agree(partner, me) or not actor.state & AGGREGATION
    p.partner = actor.with_state(SYNCHRONIZATION, actor.state & SYNCHRONIZATION and maintained and agreed)
    p.set_actor(DEFAULTED, False)

def record_default(p):
    """The default block as it stands; Synchronization is not forced."""
    p.partner = p.default
    p.set_actor(DEFAULTED, True)

def update_selected(p, actor): p.selected = p.selected and six_fields_agree(actor, p.partner)
def update_default_selected(p): p.selected = p.selected and six_fields_agree(p.default, p.partner)

def update_ntt(p, me, partner):
    """Five numbers and four bits: Activity, Timeout, Aggregation, Synchronization."""
    if partner.numbers() != me.numbers() or (partner.state ^ me.state) & 0x0F:
        p.ntt = True

# ------------------------------------------------ Receive machine, 43.4.12, Figure 43-10
def initialize(p):
    """And on to PORT_DISABLED, unconditionally."""
    p.selected = False
    record_default(p)
    p.set_actor(EXPIRED, False)
    port_disabled(p)

def port_disabled(p):
    """Leaves Selected, the learned partner and Expired as they were."""
    p.receive, p.current_while = Receive.PORT_DISABLED, 0
    p.set_partner(SYNCHRONIZATION, False)

def expired(p):
    p.receive, p.current_while = Receive.EXPIRED, SHORT_TIMEOUT_TIME
    p.set_partner(SYNCHRONIZATION, False)
    p.set_partner(TIMEOUT, True)
    p.set_actor(EXPIRED, True)

def lacp_disabled(p):
    p.receive, p.current_while, p.selected = Receive.LACP_DISABLED, 0, False
    record_default(p)
    p.set_partner(AGGREGATION, False)
    p.set_actor(EXPIRED, False)

def defaulted(p):
    p.receive, p.current_while = Receive.DEFAULTED, 0
    update_default_selected(p)
    record_default(p)
    p.set_actor(EXPIRED, False)

def current(p, me, actor, partner):
    """Compares before it records; the timer goes by our own Timeout bit."""
    update_selected(p, actor)
    update_ntt(p, me, partner)
    record_pdu(p, me, actor, partner)
    p.receive = Receive.CURRENT
    p.current_while = SHORT_TIMEOUT_TIME if p.actor_state & TIMEOUT else LONG_TIMEOUT_TIME
    p.set_actor(EXPIRED, False)

def receive_machine(p):
    """Every transition but the one on an LACPDU, until none applies."""
    while True:
        if p.receive == Receive.INITIALIZE:
            initialize(p)
        elif not p.link and p.receive != Receive.PORT_DISABLED:
            port_disabled(p)
        elif p.link and p.receive == Receive.PORT_DISABLED:
            expired(p) if p.full else lacp_disabled(p)
        elif p.receive == Receive.EXPIRED and p.current_while == 0:
            defaulted(p)
        elif p.receive == Receive.CURRENT and p.current_while == 0:
            expired(p)
        else:
            return

def displace(table, n, actor):
    """port_moved (43.4.8): other ports in PORT_DISABLED whose partner in force is this actor's system and port."""
    for m, q in table.numbered():
        same = (q.partner.system, q.partner.port) == (actor.system, actor.port)
        if m != n and q.receive == Receive.PORT_DISABLED and same:
            initialize(q)

# ------------------------------------------------ Periodic machine, 43.4.13, Figure 43-11
def periodic_machine(p):
    """The open arrow to NO_PERIODIC first, then a timer that ran out, then a changed partner Timeout."""
    short = p.partner.state & TIMEOUT
    fast, slow = (Periodic.FAST_PERIODIC, FAST_PERIODIC_TIME), (Periodic.SLOW_PERIODIC, SLOW_PERIODIC_TIME)
    while True:
        if not (p.link and p.full and (p.actor_state | p.partner.state) & ACTIVITY):
            p.periodic, p.periodic_timer = Periodic.NO_PERIODIC, 0
            return
        if p.periodic == Periodic.NO_PERIODIC:
            p.periodic, p.periodic_timer = fast
        elif p.periodic == Periodic.PERIODIC_TX:
            p.ntt = True
            p.periodic, p.periodic_timer = fast if short else slow
        elif p.periodic_timer == 0 or (p.periodic == Periodic.SLOW_PERIODIC and short):
            p.periodic, p.periodic_timer = Periodic.PERIODIC_TX, 0
        elif p.periodic == Periodic.FAST_PERIODIC and not short:
            p.periodic, p.periodic_timer = slow
        else:
            return

# ------------------------------------------------ Selection, 43.4.14.2 and document 01
def individual(table, p):
    """Own or partner's Aggregation clear, or the partner's system is ours."""
    return (not p.actor_state & p.partner.state & AGGREGATION
            or (p.partner.system_priority, p.partner.system) == (table.system_priority, table.system))

def share_group(table, p, q):
    lag_id = [(r.key, r.partner.system_priority, r.partner.system, r.partner.key) for r in (p, q)]
    return p is q or not (individual(table, p) or individual(table, q)) and lag_id[0] == lag_id[1]

def aggregator_by_rule(table, p): return min(m for m, q in table.numbered() if share_group(table, p, q))

# ------------------------------------------------ Mux machine, 43.4.15, Figure 43-13
# On entry to a state: bits of the actor's state that are set, bits that are cleared, and whether NTT is set.
ENTRY = {Mux.DETACHED: (0, SYNCHRONIZATION | COLLECTING | DISTRIBUTING, True),
         Mux.WAITING: (0, 0, False),
         Mux.ATTACHED: (SYNCHRONIZATION, COLLECTING, True),
         Mux.COLLECTING: (COLLECTING, DISTRIBUTING, True),
         Mux.DISTRIBUTING: (DISTRIBUTING, 0, False)}
NEXT_DOWN = {Mux.DISTRIBUTING: Mux.COLLECTING, Mux.COLLECTING: Mux.ATTACHED,
             Mux.ATTACHED: Mux.DETACHED, Mux.WAITING: Mux.DETACHED}

def enter(p, mux):
    sets, clears, ntt = ENTRY[mux]
    p.mux, p.wait_while = mux, AGGREGATE_WAIT_TIME if mux == Mux.WAITING else 0
    p.actor_state = p.actor_state & ~clears | sets
    p.ntt = p.ntt or ntt

def by_partners_bits(p):
    """Up or down until no step applies (step 6)."""
    in_sync, collects = p.partner.state & SYNCHRONIZATION, p.partner.state & COLLECTING
    while True:
        if p.mux == Mux.ATTACHED and in_sync:
            enter(p, Mux.COLLECTING)
        elif p.mux == Mux.COLLECTING and in_sync and collects:
            enter(p, Mux.DISTRIBUTING)
        elif p.mux == Mux.COLLECTING and not in_sync or p.mux == Mux.DISTRIBUTING and not (in_sync and collects):
            enter(p, NEXT_DOWN[p.mux])
        else:
            return

def ntt_is_cleared(p):
    """LACP off, or both ends passive on an up port (43.4.16); at full duplex never while down."""
    return not p.full or p.link and p.periodic == Periodic.NO_PERIODIC

def settle(table):
    """Steps 3 to 6 of the order of work, over all ports."""
    rule = [aggregator_by_rule(table, p) for p in table.ports]
    moving = [(p, a) for p, a in zip(table.ports, rule) if not p.selected or p.aggregator != a]
    for p, _ in moving:                                                   # step 3
        while p.mux != Mux.DETACHED:
            enter(p, NEXT_DOWN[p.mux])
    for p, a in moving:                                                   # step 4
        p.aggregator, p.selected = a, True
        enter(p, Mux.WAITING)
    waits = [p for p in table.ports if p.mux == Mux.WAITING]              # step 5: Ready (43.4.8), worked out once
    unready = {p.aggregator for p in waits if p.wait_while > 0}
    for p in waits:
        if p.aggregator not in unready:
            enter(p, Mux.ATTACHED)
    for p in table.ports:                                                 # step 6
        by_partners_bits(p)
        if ntt_is_cleared(p):
            p.ntt = False

# ------------------------------------------------ Churn detection, 43.4.17, Figures 43-15 and 43-16 (M-105)
def churn_machine(m, link, in_sync):
    """One step, after which none applies. Only a link that is down disables; Synchronization goes before the timer."""
    if not link:
        return m.entered(Churn.MONITOR)
    if in_sync:
        return m if m.state == Churn.NO_CHURN else m.entered(Churn.NO_CHURN)
    if m.state == Churn.NO_CHURN:
        return m.entered(Churn.MONITOR)
    return m.entered(Churn.CHURN) if m.state == Churn.MONITOR and m.timer == 0 else m

def watch(p):
    p.actor_churn = churn_machine(p.actor_churn, p.link, p.actor_state & SYNCHRONIZATION)
    p.partner_churn = churn_machine(p.partner_churn, p.link, p.partner.state & SYNCHRONIZATION)

def finish(table, memory):
    """The end of an accepted call that changes something: periodic machines, steps 3 to 6, then churn detection."""
    for p in table.ports:
        periodic_machine(p)
    settle(table)
    for p in table.ports:
        watch(p)
    store(table, memory)
    return 0

# ------------------------------------------------ frames, 43.4.2 and 43.5.3
def frame_of(source, subtype, rest):
    return (SLOW_PROTOCOLS + source + b'\x88\x09' + bytes((subtype, 1)) + rest).ljust(FRAME, b'\0')

def lacpdu(source, actor, partner, delay):
    return frame_of(source, 1, bytes((1, 20)) + actor.octets() + bytes(3) + bytes((2, 20)) + partner.octets() + bytes(3)
                    + bytes((3, 16)) + pack('>H', delay))

def marker(source, marker_type, octets_18_to_29): return frame_of(source, 2, bytes((marker_type, 16)) + octets_18_to_29)

def class_of(frame):
    """'LACPDU', 'Marker', 'Response', or the refusal 6, 7 or 8."""
    if len(frame) < 14 or frame[:6] != SLOW_PROTOCOLS:
        return 6
    if frame[12:14] != b'\x88\x09' or len(frame) > 14 and 3 <= frame[14] <= 10:
        return 7
    if len(frame) < FRAME or frame[14] not in (1, 2):
        return 8
    if frame[14] == 1:
        return 'LACPDU' if (frame[17], frame[37], frame[57]) == (20, 20, 16) else 8
    return {1: 'Marker', 2: 'Response'}.get(frame[16], 8) if frame[17] == 16 else 8

# ------------------------------------------------ the eight calls
def opened(memory, n=1, out=None, s=None):
    """The first refusal of 1, 2, 3, 4 that belongs to the call, or 0; the table; the port named."""
    table = table_of(memory)
    named = bool(table) and 1 <= n <= len(table.ports)
    tests = not table, not named, out is not None and len(out) < FRAME, s is not None and wrong_default(s)
    no = tests.index(True) + 1 if True in tests else 0
    return no, table, table.ports[n - 1] if named else None

def wrong_default(s): return bool(s.default.state & COLLECTING) != bool(s.default.state & SYNCHRONIZATION)

def start(memory, count, system_priority, system, delay, s):
    if not 1 <= count <= 32 or len(memory) != table_size(count):
        return 1
    if wrong_default(s):
        return 4
    table = Table(system_priority, system, delay, [port_of(*BLANK) for _ in range(count)])
    for p in table.ports:
        p.address, p.key, p.port_priority, p.actor_state, p.default = s
        p.full, p.ntt, p.ages = True, True, [NO_SEND] * 3
        p.actor_churn, p.partner_churn = p.actor_churn.entered(Churn.MONITOR), p.partner_churn.entered(Churn.MONITOR)
        initialize(p)
    return finish(table, memory)                                          # links are down: NO_PERIODIC stays

def receive(memory, n, frame, out):
    """The answer and the length sent."""
    no, table, p = opened(memory, n, out=out)
    if no:
        return no, 0
    kind = class_of(frame)
    if kind == 'Marker' and p.mux in (Mux.COLLECTING, Mux.DISTRIBUTING):
        out[:FRAME] = marker(p.address, 2, frame[18:30])
        return 0, FRAME
    if kind != 'LACPDU' or not (p.link and p.full):
        return {'LACPDU': 5, 'Marker': 9, 'Response': 12}.get(kind, kind), 0
    actor, partner = info_of(frame[18:33]), info_of(frame[38:53])
    current(p, table.says_of_itself(n), actor, partner)
    displace(table, n, actor)
    return finish(table, memory), 0

def tick(memory):
    no, table, _ = opened(memory)
    if no:
        return no
    for p in table.ports:
        p.current_while = max(p.current_while - 1, 0)
        p.periodic_timer = max(p.periodic_timer - 1, 0)
        p.wait_while = max(p.wait_while - 1, 0)
        p.actor_churn, p.partner_churn = (m._replace(timer=max(m.timer - 1, 0)) for m in (p.actor_churn, p.partner_churn))
        p.ages = [age + 1 if age < OLDEST_AGE else NO_SEND for age in p.ages]
        receive_machine(p)
    return finish(table, memory)

def line(memory, n, up, full):
    """Link and duplex together (M-103). An up port whose duplex changes is down for a moment within the call."""
    no, table, p = opened(memory, n)
    if no or (p.link, p.full) == (up, full):
        return no
    if p.full != full:
        p.link = False
        receive_machine(p)
    p.link, p.full = up, full
    receive_machine(p)
    return finish(table, memory)

def settings(memory, n, s):
    no, table, p = opened(memory, n, s=s)
    if no or p.settings() == s:
        return no
    if (p.key, p.port_priority, p.actor_state & AGGREGATION) != (s.key, s.port_priority, s.own_bits & AGGREGATION):
        p.selected = False
    p.address, p.key, p.port_priority, p.default, p.ntt = s.address, s.key, s.port_priority, s.default, True
    p.actor_state = p.actor_state & ~7 | s.own_bits
    return finish(table, memory)

def fetch(memory, n, out):
    """Changes only NTT and the ages of its port."""
    no, table, p = opened(memory, n, out=out)
    if no or not (p.ntt and p.link and p.full):
        return no or 10
    if NO_SEND not in p.ages:
        return 11
    out[:FRAME] = lacpdu(p.address, table.says_of_itself(n), p.partner, table.collector_max_delay)
    p.ages.remove(NO_SEND)                                                # the first free place goes, and
    p.ages.insert(0, 0)                                                   # those before it move down by one
    p.ntt = False
    store(table, memory)
    return 0

def report_port(memory, n):
    no, _, p = opened(memory, n)
    return no, port_of(*BLANK) if no else p

def report_aggregator(memory, k):
    """The answer; ports that hold it, are attached and distribute (bit 0 is port 1); how many distribute; the lowest."""
    no, table, _ = opened(memory, k)
    if no:
        return no, (0, 0, 0, 0, 0)
    holding, attaching, sending = ([n for n, p in table.numbered() if p.aggregator == k and p.mux >= least]
                                   for least in (Mux.DETACHED, Mux.ATTACHED, Mux.DISTRIBUTING))
    sets = (sum(1 << n - 1 for n in ports) for ports in (holding, attaching, sending))
    return 0, (*sets, len(sending), min(sending, default=0))

# ================================================ the story

def address(last, first=0): return bytes((first, 0, 0, 0, 0, last))

OURS = 1, address(9), 0                     # system priority, system address, CollectorMaxDelay
AT_START = Settings(bytes.fromhex('02005E102030'), 1, 1, ACTIVITY | TIMEOUT | AGGREGATION, NOBODY)
MARKER, RESPONSE = (marker(address(5, 2), t, pack('>H6sI', 1, address(5), 7)) for t in (1, 2))

def with_default_state(state): return AT_START._replace(default=NOBODY._replace(state=state))

class Story:
    def __init__(self, count): self.memory = bytearray(table_size(count))
    def start(self, count=6, s=AT_START): return start(self.memory, count, *OURS, s)
    def ticks(self, count): return [tick(self.memory) for _ in range(count)]
    def fetch(self, n, room=FRAME): return fetch(self.memory, n, bytearray(b'\xFF' * room))
    def hear(self, n, frame, room=FRAME): return receive(self.memory, n, frame, bytearray(b'\xFF' * room))

    def lacpdu(self, far, n):
        """What far end S.q ('5.1') says to port n, whose present word of itself it repeats."""
        system, q = map(int, far.split('.'))
        actor, partner = Info(1, address(system), 1, 1, q, 0x3F), table_of(self.memory).says_of_itself(n)
        return lacpdu(address(system, 2), actor, partner, 0)

    def speak(self, pairs):
        """'5.1>6' is: far end 5.1 speaks on port 6."""
        for far, n in (pair.split('>') for pair in pairs.split()):
            self.hear(int(n), self.lacpdu(far, int(n)))

    def event(self, text, _, further=''):
        """The event's line, after its calls; then 'R1 P4' is the report of aggregator 1 and that of port 4."""
        print(text.ljust(34) + '  '.join(self.cell(n) for n in range(1, 7)))
        for word in further.split():
            print({'R': self.aggregator_line, 'P': self.port_line}[word[0]](int(word[1:])))

    def cell(self, n):
        _, p = report_port(self.memory, n)
        wait = f'{p.wait_while:02}' if p.mux == Mux.WAITING else '--'
        return f'{p.aggregator}{"IPELFC"[p.receive]}{"dwacD"[p.mux]}{wait}'

    def aggregator_line(self, k):
        no, (*sets, count, lowest) = report_aggregator(self.memory, k)
        if no:
            return f'  aggregator {k} refused {no}'
        holding, attaching, sending = (''.join('-#'[s >> b & 1] for b in range(6)) for s in sets)
        return f'  aggregator {k} holds {holding} attached {attaching} distributing {sending} count {count} lowest {lowest}'

    def port_line(self, n):
        no, p = report_port(self.memory, n)
        if no:
            return f'  port {n} refused {no}'
        actor, partner = (''.join(letter if state >> b & 1 else '-' for b, letter in enumerate('ATGSCDFE'))
                          for state in (p.actor_state, p.partner.state))
        return (f'  port {n} {p.receive.name:14}{p.current_while:3}  {p.periodic.name:14}{p.periodic_timer:3}'
                f'  {p.mux.name:14}{p.wait_while:3}  {"NTT  " if p.ntt else "-    "}{actor}  {partner}')

def answer(text, no): print(f'  {text}: {no}')
def answer_received(text, given): answer(text, given[0] or f'0 sent {given[1]}')

def tell():
    print('six ports, active, short timeout, aggregatable, default partner block all zeros')
    s = Story(6)
    m = s.memory
    all_but_4 = '5.2>2 5.3>3 6.5>5 5.1>6'
    s.event('start', s.start(), 'R1 P1')
    s.event('links 1 to 6 up', [line(m, n, True, True) for n in range(1, 7)], 'P1')
    s.event('partners 5.1 5.2 5.3, 6.4 6.5 6.6', s.speak('5.1>1 5.2>2 5.3>3 6.4>4 6.5>5 6.6>6'), 'P1')
    s.event('19 ticks', s.ticks(19))
    s.event('1 tick', s.ticks(1), 'R1 R4 R2 P4')
    s.event('link 1 down', line(m, 1, False, True), 'R1 P1')
    answer_received('LACPDU on port 1', s.hear(1, s.lacpdu('5.1', 1)))
    answer_received('Marker on port 1', s.hear(1, MARKER))
    answer_received('Marker on port 2', s.hear(2, MARKER))
    answer_received('Response on port 2', s.hear(2, RESPONSE))
    s.event('all speak', s.speak('5.2>2 5.3>3 6.4>4 6.5>5 6.6>6'))
    s.event('5.1 speaks on port 6', s.speak('5.1>6'), 'R1 R2 R4 P1')
    s.event('10 ticks', s.ticks(10))
    for count, further in (10, 'R2 R4'), (10, 'P4'), (20, ''), (10, 'P4 R4 R5'):
        s.event('all speak but 6.4', s.speak(all_but_4))
        s.event(f'{count} ticks', s.ticks(count), further)
    s.event('key of port 3 becomes 2', settings(m, 3, AT_START._replace(key=2)), 'R2 R3')
    s.event('all speak but 6.4', s.speak(all_but_4))
    s.event('duplex of port 5 half', line(m, 5, True, False), 'P5')
    s.event('20 ticks', s.ticks(20), 'R2 R3 R5')
    s.event('port 1 up at half duplex', line(m, 1, True, False), 'P1')
    answer('fetch on port 1', s.fetch(1))
    s.event('duplex of port 1 full', line(m, 1, True, True))
    s.event('6.6 speaks on port 1', s.speak('6.6>1'))
    s.event('5 ticks', s.ticks(5))
    s.event('6.4 speaks on port 4', s.speak('6.4>4'), 'R1')
    s.event('duplex of port 5 full', line(m, 5, True, True))
    s.event('6.5 speaks on port 5', s.speak('6.5>5'), 'R1')
    s.event('key of port 3 becomes 1', settings(m, 3, AT_START))
    s.event('all speak', s.speak('6.6>1 5.2>2 5.3>3 6.4>4 6.5>5 5.1>6'))
    s.event('15 ticks', s.ticks(15))
    s.event('5 ticks', s.ticks(5), 'R1 R2 R3 P3')
    fetched = [s.fetch(n) for n in range(1, 7)]
    s.event('fetch on every port', fetched)
    for n, no in enumerate(fetched, 1):
        answer(f'fetch on port {n}', no)
    answer('fetch on port 1', s.fetch(1))
    answer('settings as they are on port 1', settings(m, 1, AT_START))
    answer('port 1 up at full duplex again', line(m, 1, True, True))
    answer('fetch with a buffer of 123 octets', s.fetch(1, 123))
    answer('settings with a wrong default', settings(m, 1, with_default_state(0x10)))
    answer('tick of a table one octet short', tick(m[:-1]))
    for n in 0, 7:
        answer(f'report of port {n}', report_port(m, n)[0])
    for k in 0, 7:
        answer(f'report of aggregator {k}', report_aggregator(m, k)[0])
    odd = s.lacpdu('6.6', 1)
    answer_received('thirteen octets on port 1', s.hear(1, odd[:13]))
    answer_received('version 7, type octet 9 on port 1', s.hear(1, odd[:15] + bytes((7, 9)) + odd[17:]))
    answer_received('a Marker with a buffer of 123 octets', s.hear(1, MARKER, 123))
    answer('start with a wrong default', s.start(6, with_default_state(0x08)))
    answer('start of seven ports on this memory', s.start(7))
    s.event('start again', s.start(), 'R1')
    wide = Story(32)
    answer('start of 32 ports', wide.start(32))
    for n in 32, 33:
        answer(f'report of port {n} of 32', report_port(wide.memory, n)[0])

if __name__ == '__main__':
    tell()
