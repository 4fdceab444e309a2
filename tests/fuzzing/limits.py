"""Limits: wrong readings of the model that have `>=` for `>`, or the reverse, at one limit each. Where such a reading
says otherwise than the model, its limit is met exactly: that is counted in each run, so that a fuzz tells how often the two
could be told apart."""
from types import SimpleNamespace

from model import audit, commands, configuration, hashes, host, link, router, run, shims, texts, trace, transfers

from .readings import READINGS, Reading


class Limit(Reading):
    """A reading of a limit. The first of its functions says otherwise where the limit is met, and has no effects."""


LIMITS = []


def limit(name, says, of, replaced):
    """A wrong reading of a limit, with the function below in place of one of the model. It is given that one first."""

    def keep(function):
        right = getattr(of, replaced)
        told = Limit(name, says)
        told.replaced.append((of, replaced, lambda *words: function(right, *words)))
        LIMITS.append(told)
        READINGS.append(told)
        return function

    return keep


def and_later():
    """A further function of the last limit: what a link doesn't do at a time it tries a nanosecond later. Without it that time
    never ends."""
    right = run.Run.work

    def work(self, now):
        happened = right(self, now)
        for its_link in (it for node in self.nodes for it in node.links.values()):
            if its_link.decides is not None and its_link.decides <= now:
                its_link.decides = now + 1
        return happened

    LIMITS[-1].replaced.append((run.Run, "work", work))


def changed(plan, **more):
    return SimpleNamespace(**vars(plan) | more)


# ## links: a limit that is one less, where just as much as it has place, or one more, where no more than it has


def narrower(its_link, key, step=-1):
    """A link with a limit that is one less or more, and the packets of the link."""
    plan = changed(its_link.plan, **{key: getattr(its_link.plan, key) + step})
    return SimpleNamespace(plan=plan, line=its_link.line, legacy=its_link.legacy)


def link_limit(key, says, step=-1):
    its_kind = key.partition("_")[0]
    replaced = "refuses_legacy" if its_kind == "legacy" else "refuses"

    @limit(key.replace("_", "-"), says, link, replaced)
    def _(right, its_link, *words):
        is_other = its_kind != "legacy" and words[0] != its_kind
        return right(its_link if is_other else narrower(its_link, key, step), *words)


for kind, packets in (("request", "requests"), ("regular", "regular packets")):
    link_limit(f"{kind}_queues", f"{packets} may wait under one key more than a link has queues", 1)
    link_limit(f"{kind}_ring", f"a queue of {packets} has no place for as many as its ring")
    link_limit(f"{kind}_queue_bytes", f"a queue of {packets} has no place for just as many bytes as it may have")
    link_limit(f"{kind}_bytes", f"a link has no place for just as many bytes of {packets} as it may have")
link_limit("request_inner", "under one key requests may wait under one inner key more than there are queues", 1)
link_limit("legacy_ring", "a link has no place for as many legacy packets as its ring")
link_limit("legacy_bytes", "a link has no place for just as many bytes of legacy packets as it may have")


@limit("paid", "a request waits where its credit is just enough", link, "is_paid")
def _(right, its_link, request, now):
    return link.cost(its_link.plan, request) < link.credit(its_link, now)


and_later()


@limit("deficit", "a turn ends where its bytes are just enough for what follows", link, "goes_on")
def _(right, turn, following):
    return turn.deficit > shims.length(following)


@limit("free", "a link isn't free yet when its packet ends", run, "decides")
def _(right, its_link, now, is_reached):
    return its_link.free_at < now and right(its_link, now, is_reached)


and_later()


# ## routers


@limit("change", "a change is in force behind its time", router, "come")
def _(right, changes, now):
    return [it for it in changes if it.at_ns < now]


@limit("end-of-life", "a flow still lives at its end", router, "lives")
def _(right, charges, now):
    return bool(charges) and now <= router.end_of(charges)


@limit("same-second", "a grant takes the place of another one of its second", router, "is_superseded")
def _(right, holder, grant):
    return holder != grant and holder.second > grant.second


@limit("budget", "a grant may not be used up to its last byte", router, "is_over")
def _(right, charges, grant, now, packet):
    return router.used(charges, grant, now) + shims.length(packet) >= router.UNIT * grant.rights.n


@limit("slots", "a flow more than there are slots finds one", router, "is_cache_full")
def _(right, plan, charges, now):
    return router.living(charges, now) > plan.slots


@limit("seconds", "a grant still holds in the second in which it ends", hashes, "is_over")
def _(right, old, rights):
    return old > rights.t


@limit("second-0", "a grant of the first second is none", hashes, "is_before_all")
def _(right, second):
    return second <= 0


@limit("hop-limit-32", "a packet passes 33 routers", router, "is_spent")
def _(right, packet):
    return packet.hops > router.HOPS_MOST


@limit("path", "a path has place for 17 entries", router, "is_path_full")
def _(right, shim):
    return len(shim.entries) > shims.CAPABILITIES_MOST


# ## hosts


@limit("ask-again", "a host asks again a nanosecond later", host, "may_ask")
def _(right, plan, entries, now):
    return not host.asks(entries) or now > host.asks(entries)[-1].time + plan.retry_ns


@limit("margin", "a packet doesn't fit where just the margin and a second are left", host, "is_in_time")
def _(right, plan, grant, now):
    return now + plan.margin_ns + hashes.SECOND < grant.asked + grant.rights.t * hashes.SECOND


@limit("units-left", "a packet doesn't fit where just its bytes are left", host, "has_left")
def _(right, grant, size):
    return grant.used + size < router.UNIT * grant.rights.n


@limit("half-units", "a renewal is due where just half of the units are used", host, "is_half_gone")
def _(right, grant, now, size):
    return right(grant, now, size) or 2 * (grant.used + size) == router.UNIT * grant.rights.n


@limit("half-seconds", "a renewal is due where just half of the seconds are over", host, "is_half_gone")
def _(right, grant, now, size):
    return right(grant, now, size) or 2 * (now - grant.asked) == grant.rights.t * hashes.SECOND


@limit("kept", "a nonce is shown where routers keep the grant just for the margin", host, "is_kept")
def _(right, plan, grant, now):
    return now + plan.margin_ns <= grant.life


@limit("notices", "a grant is given up with the third notice", host, "is_given_up")
def _(right, since):
    return len(host.notices(since)) > 2


@limit("grants", "a policy grants a source once more than it may", host, "grants")
def _(right, plan, sent, granted, source, tags):
    return right(changed(plan, grants=plan.grants + 1), sent, granted, source, tags)


@limit("units-most", "a host doesn't take as many units as its version has", host, "takes")
def _(right, plan, entries, rights):
    return right(plan, entries, rights) and rights.n < shims.units_most(plan.version)


@limit("seconds-most", "a host doesn't take as many seconds as its version has", host, "takes")
def _(right, plan, entries, rights):
    return right(plan, entries, rights) and rights.t < shims.seconds_most(plan.version)


@limit("file-done", "a file isn't done where all of it is acknowledged", transfers, "is_done")
def _(right, file, taken, number):
    return transfers.acknowledged(taken, number) > file.size


@limit("told-before", "an acknowledgement of as much as before tells something", transfers, "tells")
def _(right, ack, files, taken, source):
    is_same = ack.transfer < len(files) and files[ack.transfer].destination == source
    return right(ack, files, taken, source) or is_same and ack.next == transfers.acknowledged(taken, ack.transfer)


# ## runs, and reports


@limit("horizon", "nothing happens at the horizon", run.Run, "is_within")
def _(right, self, time):
    return time < self.config.top.horizon


@limit("window-end", "what happens at the end of a window belongs to it", run, "is_in_window")
def _(right, now, end):
    return now <= end


@limit("max-events", "as many events as may be are too many", commands, "are_too_many")
def _(right, count, most):
    return count >= most


@limit("report-line", "a line of 255 bytes is none", audit, "is_line")
def _(right, piece):
    return right(piece) and len(piece) < 256


@limit("equal-grants", "among equal grants the last one is the worst", audit, "is_worse")
def _(right, one, other):
    return one.bytes * audit.limit(other.grant) >= other.bytes * audit.limit(one.grant)


# ## configurations and traces


@limit("least-value", "a key may not have its least value", configuration, "is_from")
def _(right, least, value):
    return least < value


@limit("greatest-value", "a key may not have its greatest value", configuration, "is_up_to")
def _(right, value, most):
    return value < most


@limit("counts", "a table or a sum may not be as large as it may be", configuration, "is_past")
def _(right, count, most):
    return count >= most


@limit("retry", "a host may not ask again just behind the margin and a second", configuration, "is_too_soon")
def _(right, plan):
    return plan.retry_ns <= configuration.SECOND + plan.margin_ns


@limit("times", "two changes may come at one time", configuration, "is_no_later")
def _(right, time, before):
    return time < before


@limit("row-order", "two rows may not have one time", trace, "is_in_order")
def _(right, time, before):
    return time > before.last


@limit("number", "a number in a trace may not be the greatest one", texts, "is_at_most")
def _(right, number, most):
    return number < most


@limit("characters", "a name, a number or a shim may not be as long as it may be", texts, "has_at_most")
def _(right, text, most):
    return len(text) < most


@limit("items", "a shim may not have sixteen entries or capabilities", shims, "is_list")
def _(right, items):
    return len(items) < shims.CAPABILITIES_MOST


@limit("pointer", "a pointer may not stand behind the last capability", shims, "points_within")
def _(right, shim):
    return shim.pointer < len(shim.capabilities)


@limit("file-size", "a configuration may not have as many bytes as it may have", commands, "is_too_large")
def _(right, data, most):
    return len(data) >= most


@limit("rows", "a trace may not have a million rows", trace, "is_row")
def _(right, record):
    return record <= trace.ROWS_MOST


@limit("files", "a host may not have its last file", trace, "has_place")
def _(right, before, node):
    return before.files[node] < trace.FILES_MOST - 1


NAMES = [it.name for it in LIMITS]

# ## which limits are met


class Watch:
    """Counts, for each limit of these names, how often its reading says otherwise than the model. `with Watch(see, names):`
    calls `see` with the name of the limit each time."""

    def __init__(self, see, names):
        self.see, self.names, self.right = see, names, []

    def __enter__(self):
        told = {}
        for it in LIMITS:
            if it.name not in self.names:
                continue
            of, name, wrong = it.replaced[0]
            told.setdefault((of, name), []).append((it.name, wrong))
        for (of, name), readings in told.items():
            right = getattr(of, name)
            self.right.append((of, name, right))
            setattr(of, name, self.watched(right, readings))
        return self

    def watched(self, right, readings):
        def function(*words):
            answer = right(*words)
            for name, wrong in readings:
                if wrong(*words) != answer:
                    self.see(name)
            return answer

        return function

    def __exit__(self, *_):
        for of, name, right in self.right:
            setattr(of, name, right)
