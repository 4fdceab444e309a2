"""Wrong readings of transfers: of rows with files and ticks, and of what hosts make of segments and acknowledgements."""
from model import host, report, run, shims, texts, trace, transfers
from model.shims import Ack, Data
from .readings import BREACHES, also, reading

# the functions of the model that readings call
Host, HostNode, Transfers = host.Host, run.HostNode, transfers.Transfers
right_segment, right_deliver, right_take = Transfers.segment, Transfers.deliver, Transfers.take
right_receive, right_reply, right_repeat = Host.receive, Host.reply, Host.repeat
right_carried, right_work_node = Host.carried, run.Run.work_node
right_sums, right_is_kind, right_payload = report.sums, trace.is_kind, trace.payload_of


# ## what is delivered


@reading("range-again", "a range that comes again is delivered again", Transfers, "deliver")
def _(self, source, data):
    return data, right_deliver(self, source, data)[1]


@reading("one-source", "the files of all sources with one number have one place", transfers, "received")
def _(delivered, source, number):
    return sum(it.data.bytes for it in delivered if it.data.transfer == number)


@reading("range-of-stray", "what a stray brings is delivered and acknowledged", Host, "receive")
def _(self, packet):
    delivered, upper = self.transfers.receive(packet.flow.source, packet.upper)
    is_stray = packet.flow.destination != self.plan.address
    receipt = host.Receipt("stray") if is_stray else self.judge(packet)
    return receipt._replace(upper=upper, delivered=delivered)


@reading("range-of-marked", "what a marked packet brings isn't delivered", Host, "receive")
def _(self, packet):
    if isinstance(packet.carried, shims.Shim) and packet.carried.demoted and isinstance(packet.upper, Data):
        packet = packet._replace(upper=None)
    return right_receive(self, packet)


@reading("range-of-legacy", "what a packet without a shim brings isn't delivered", Host, "receive")
def _(self, packet):
    return right_receive(self, packet._replace(upper=None) if packet.carried is None else packet)


@reading("range-bytes", "of a segment only the file's bytes count in the last line", report, "sums")
def _(happened):
    told = right_sums(happened)
    is_data = isinstance(happened, run.Received) and told["bytes"] and isinstance(happened.packet.upper, Data)
    return told | {"bytes": happened.packet.upper.bytes} if is_data else told


# ## what is acknowledged


@reading("sent-is-acked", "a segment is acknowledged when it is sent", Transfers, "segment")
def _(self, number):
    data = right_segment(self, number)
    self.taken.append(Ack(number, data.first + data.bytes))
    return data


@reading("ack-once", "only a range that is delivered is acknowledged", Transfers, "deliver")
def _(self, source, data):
    delivered, ack = right_deliver(self, source, data)
    return delivered, ack if delivered else None


@reading("ack-again", "an acknowledgement that tells nothing new brings the next segment again", Transfers, "take")
def _(self, source, ack):
    answer = right_take(self, source, ack)
    is_done = transfers.is_done(self.files[ack.transfer], self.taken, ack.transfer)
    return answer or (None if is_done else self.segment(ack.transfer))


@reading("ack-of-first", "an acknowledgement is for the first file to its source that isn't done", Transfers, "take")
def _(self, source, ack):
    number = transfers.due(self.files, self.taken, source)
    return right_take(self, source, ack if number is None else ack._replace(transfer=number))


@reading("last-ack", "the last acknowledgement is answered, too", Transfers, "take")
def _(self, source, ack):
    is_new = transfers.tells(ack, self.files, self.taken, source)
    answer = right_take(self, source, ack)
    return Data(ack.transfer, ack.next, 0) if is_new and answer is None else answer


# ## which segments are sent


@reading("last-segment", "the last segment is as long as all others", transfers, "segment")
def _(file, taken, number):
    return Data(number, transfers.acknowledged(taken, number), file.segment)


@reading("tick-latest", "a tick is for the latest file to its destination", transfers, "due")
def _(files, taken, destination):
    numbers = [it for it, file in enumerate(files) if file.destination == destination and not transfers.is_done(file, taken, it)]
    return max(numbers, default=None)


@reading("tick-first", "a tick is for the first file to its destination, be it done or not", transfers, "due")
def _(files, taken, destination):
    number = min([it for it, file in enumerate(files) if file.destination == destination], default=None)
    return None if number is None or transfers.is_done(files[number], taken, number) else number


@reading("tick-of-host", "a tick is for the first file of its host that isn't done", Host, "repeat")
def _(self, now, destination):
    files, taken = self.transfers.files, self.transfers.taken
    due = [file.destination for number, file in enumerate(files) if not transfers.is_done(file, taken, number)]
    return right_repeat(self, now, due[0] if due else destination)


@reading("file-numbers", "the files of a host are numbered for each destination", Transfers, "start")
def _(self, file):
    self.files.append(file)
    data = self.segment(len(self.files) - 1)
    return data._replace(transfer=len([it for it in self.files if it.destination == file.destination]) - 1)


# ## how they are sent


@reading("answer-body", "the payload of an answer isn't counted in its body", Host, "prepare")
def _(self, now, peer, payload, upper=None, back=None, is_reply=False):
    entries = self.entries(peer)
    body = shims.back_bytes(self.plan.version, back) + (0 if is_reply else payload)
    kind = host.shape(self.plan, entries, now, body)
    carried = self.carried(entries, kind, back, is_reply)
    packet = shims.Packet(self.identity(), shims.Flow(self.plan.address, peer), payload, carried, upper=upper)
    entries.append(host.Prepared(now, kind, shims.length(packet) - payload * is_reply, self.offered()))
    self.prepared += 1
    return packet, kind


@reading("upper-body", "the eight bytes of an upper part aren't counted", shims, "upper_bytes")
def _(upper):
    return upper.bytes if isinstance(upper, Data) else 0


@reading("bare-answer", "without return info there is no answer", HostNode, "received")
def _(self, now, number, packet):
    receipt, reply = self.host.receive(packet), None
    if receipt.answer is not None:
        reply = self.sent(now, *self.host.reply(now, packet.flow.source, receipt))
    return run.Received(now, self.number, packet, number, receipt, reply)


@reading("bare-legacy", "a legacy answer without return info has no shim", Host, "carried")
def _(self, entries, kind, back, is_reply):
    return right_carried(self, entries, kind, back, is_reply and back is not None)


@reading("back-alone", "an answer doesn't ride on return info", Host, "reply")
def _(self, now, peer, receipt):
    return right_reply(self, now, peer, receipt if receipt.answer is None else receipt._replace(upper=None))


@reading("notice-alone", "an answer doesn't ride on a notice", Host, "reply")
def _(self, now, peer, receipt):
    is_notice = receipt.answer is not None and receipt.answer.rights is None
    return right_reply(self, now, peer, receipt._replace(upper=None) if is_notice else receipt)


@reading("file-unnoted", "a file isn't noted for the policy", Host, "send_file")
def _(self, now, file):
    return self.prepare_upper(now, file.destination, self.transfers.start(file))


@reading("tick-noted", "a tick is noted for the policy, also where it sends nothing", Host, "repeat")
def _(self, now, destination):
    self.sent.append(destination)
    return right_repeat(self, now, destination)


# ## rows and lines


@reading("tick-unseen", "a tick without a packet is no event", run.Run, "work_node")
def _(self, now, node, reaching):
    happened = right_work_node(self, now, node, reaching)
    return [it for it in happened if not isinstance(it, run.Ticked)]


@reading("files-most", "a host has 65,535 files", trace, "is_kind", aim="files")
def _(config, kind, node, before):
    return right_is_kind(config, kind, node, before) and (kind != b"file" or before.files[node] < trace.FILES_MOST - 1)


@reading("segment-most", "a segment has up to 1,600 bytes", trace, "payload_of", aim="segment-most")
def _(kind, text):
    return (texts.decimal(text, trace.PAYLOAD_MOST) or None) if kind == b"file" else right_payload(kind, text)


# ## readings whose reports break a promise, though program and model would read alike


@reading("again", "a range that comes again is delivered again", Transfers, "deliver", BREACHES)
def _(self, source, data):
    return data, right_deliver(self, source, data)[1]


@reading("gap", "every other segment is left out, and what comes behind a gap is delivered", transfers, "segment", BREACHES)
def _(file, taken, number):
    first = transfers.acknowledged(taken, number)
    first = min(first + file.segment, file.size - 1) if first else 0
    return Data(number, first, min(file.segment, file.size - first))


@also(transfers, "is_next", BREACHES)
def _(data, delivered, source):
    return data.first >= transfers.received(delivered, source, data.transfer)


@reading("beyond", "the last segment is as long as all others", transfers, "segment", BREACHES)
def _(file, taken, number):
    return Data(number, transfers.acknowledged(taken, number), file.segment)
