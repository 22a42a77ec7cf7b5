// A terminal and a switch over rings written plainly, to measure those of crates/terminal and crates/switch against: run by ends.sh.
use std::time::Instant;

#[derive(Clone, Copy, Debug, PartialEq, Eq)]
enum Layer {
    Frame,
    Link,
    Terminal,
    Switch,
    Making,
}

#[derive(Clone, Copy, Debug, PartialEq, Eq)]
struct Fault {
    number: u8,
    layer: Layer,
    place: Option<usize>,
}

fn fault(layer: Layer, number: u8) -> Fault {
    Fault { number, layer, place: None }
}

fn in_frame(number: u8, place: usize) -> Fault {
    Fault { number, layer: Layer::Frame, place: Some(place) }
}

// Frames.

#[derive(Clone, Copy, Debug, PartialEq, Eq)]
struct CallId(u16);

#[derive(Clone, Copy, Debug, PartialEq, Eq)]
enum Operation {
    Hold,
    Retrieve,
}

#[derive(Clone, Copy, Debug, PartialEq, Eq)]
enum Cause {
    NotSubscribed,
    LimitReached,
    CallNotThere,
    AlreadyOnHold,
    NotOnHold,
    NoChannel,
}

#[derive(Clone, Copy, Debug, PartialEq, Eq)]
enum Verdict {
    Granted,
    Declined(Cause),
}

#[derive(Clone, Copy, Debug, PartialEq, Eq)]
enum News {
    PutOnHold,
    Retrieved,
    Released,
}

#[derive(Clone, Copy, Debug, PartialEq, Eq)]
enum Body {
    Request(Operation),
    Answer(Operation, Verdict),
    ClearRequest,
    ClearAnswer,
    Notice(News),
}

#[derive(Clone, Copy, Debug, PartialEq, Eq)]
struct Frame {
    exchange: bool,
    call: CallId,
    body: Body,
}

const SS_TYPE: u16 = 12;
const INVOKE: u16 = 4;
const INVOKE_ACK: u16 = 5;
const RETRIEVE: u16 = 6;
const RETRIEVE_ACK: u16 = 7;

fn cause_number(operation: Operation, cause: Cause) -> Option<u16> {
    match (operation, cause) {
        (Operation::Hold, Cause::NotSubscribed) => Some(1),
        (Operation::Hold, Cause::LimitReached) => Some(2),
        (Operation::Hold, Cause::CallNotThere) => Some(3),
        (Operation::Hold, Cause::AlreadyOnHold) => Some(4),
        (Operation::Retrieve, Cause::CallNotThere) => Some(1),
        (Operation::Retrieve, Cause::NotOnHold) => Some(2),
        (Operation::Retrieve, Cause::NoChannel) => Some(3),
        _ => None,
    }
}

fn cause_with_number(operation: Operation, number: u16) -> Option<Cause> {
    match (operation, number) {
        (Operation::Hold, 1) => Some(Cause::NotSubscribed),
        (Operation::Hold, 2) => Some(Cause::LimitReached),
        (Operation::Hold, 3) => Some(Cause::CallNotThere),
        (Operation::Hold, 4) => Some(Cause::AlreadyOnHold),
        (Operation::Retrieve, 1) => Some(Cause::CallNotThere),
        (Operation::Retrieve, 2) => Some(Cause::NotOnHold),
        (Operation::Retrieve, 3) => Some(Cause::NoChannel),
        _ => None,
    }
}

struct Octets {
    bytes: [u8; 32],
    len: usize,
}

impl Octets {
    fn as_slice(&self) -> &[u8] {
        &self.bytes[..self.len]
    }
}

fn write(frame: &Frame) -> Result<Octets, Fault> {
    if matches!(frame.body, Body::Notice(_)) && frame.exchange {
        return Err(in_frame(12, 0));
    }
    if frame.call.0 < 1 || frame.call.0 > 16_383 {
        return Err(in_frame(13, 1));
    }
    let mut bytes = [0u8; 32];
    let (kind, bits, pdu, count) = match frame.body {
        Body::Request(operation) => {
            let pdu_type = if operation == Operation::Hold { INVOKE } else { RETRIEVE };
            (1, 11, SS_TYPE << 10 | pdu_type << 5, 2)
        }
        Body::Answer(operation, verdict) => {
            let pdu_type = if operation == Operation::Hold { INVOKE_ACK } else { RETRIEVE_ACK };
            let pdu = SS_TYPE << 10 | pdu_type << 5;
            match verdict {
                Verdict::Granted => (2, 12, pdu | 1 << 4, 2),
                Verdict::Declined(cause) => {
                    let Some(number) = cause_number(operation, cause) else {
                        return Err(in_frame(17, 3));
                    };
                    (2, 15, pdu | number << 1, 2)
                }
            }
        }
        Body::ClearRequest => (3, 0, 0, 0),
        Body::ClearAnswer => (4, 0, 0, 0),
        Body::Notice(news) => {
            let number = match news {
                News::PutOnHold => 1,
                News::Retrieved => 2,
                News::Released => 3,
            };
            (5, 8, number << 8, 1)
        }
    };
    bytes[0] = kind << 4 | u8::from(frame.exchange);
    bytes[1..3].copy_from_slice(&frame.call.0.to_be_bytes());
    bytes[3] = bits;
    bytes[4..6].copy_from_slice(&pdu.to_be_bytes());
    Ok(Octets { bytes, len: 4 + count })
}

fn read_pdu(bits: u8, bytes: &[u8]) -> Result<u16, Fault> {
    if bits < 11 {
        return Err(in_frame(15, 4));
    }
    let pdu = u16::from_be_bytes([bytes[4], bytes[5]]);
    if pdu >> 10 != SS_TYPE {
        return Err(in_frame(15, 4));
    }
    Ok(pdu)
}

fn read_request(bits: u8, bytes: &[u8]) -> Result<Body, Fault> {
    let pdu = read_pdu(bits, bytes)?;
    let operation = match pdu >> 5 & 31 {
        INVOKE => Operation::Hold,
        RETRIEVE => Operation::Retrieve,
        _ => return Err(in_frame(16, 4)),
    };
    if bits != 11 {
        return Err(in_frame(17, 3));
    }
    Ok(Body::Request(operation))
}

fn read_answer(bits: u8, bytes: &[u8]) -> Result<Body, Fault> {
    let pdu = read_pdu(bits, bytes)?;
    let operation = match pdu >> 5 & 31 {
        INVOKE_ACK => Operation::Hold,
        RETRIEVE_ACK => Operation::Retrieve,
        _ => return Err(in_frame(16, 4)),
    };
    let granted = pdu >> 4 & 1 == 1;
    if bits == 12 && granted {
        return Ok(Body::Answer(operation, Verdict::Granted));
    }
    if bits == 15 && !granted {
        if let Some(cause) = cause_with_number(operation, pdu >> 1 & 7) {
            return Ok(Body::Answer(operation, Verdict::Declined(cause)));
        }
    }
    Err(in_frame(17, 3))
}

fn read(bytes: &[u8]) -> Result<Frame, Fault> {
    if bytes.len() < 4 || bytes.len() > 32 {
        return Err(in_frame(11, bytes.len()));
    }
    let kind = bytes[0] >> 4;
    let exchange = bytes[0] & 1 == 1;
    if !(1..=5).contains(&kind) || bytes[0] & 0x0E != 0 || kind == 5 && exchange {
        return Err(in_frame(12, 0));
    }
    let call = u16::from_be_bytes([bytes[1], bytes[2]]);
    if call < 1 || call > 16_383 {
        return Err(in_frame(13, 1));
    }
    let bits = bytes[3];
    let octets = usize::from(bits).div_ceil(8);
    if bytes.len() != 4 + octets {
        return Err(in_frame(14, 3));
    }
    let filling = 8 * octets - usize::from(bits);
    if bytes[bytes.len() - 1] & ((1 << filling) - 1) as u8 != 0 {
        return Err(in_frame(14, 3));
    }
    let body = match (kind, bits) {
        (1, _) => read_request(bits, bytes)?,
        (2, _) => read_answer(bits, bytes)?,
        (3, 0) => Body::ClearRequest,
        (4, 0) => Body::ClearAnswer,
        (5, 8) => match bytes[4] {
            1 => Body::Notice(News::PutOnHold),
            2 => Body::Notice(News::Retrieved),
            3 => Body::Notice(News::Released),
            _ => return Err(in_frame(17, 3)),
        },
        _ => return Err(in_frame(17, 3)),
    };
    Ok(Frame { exchange, call: CallId(call), body })
}

// Links.

trait Link {
    fn send(&mut self, frame: &[u8]) -> Result<(), Fault>;
    fn take(&mut self, out: &mut [u8]) -> Result<Option<usize>, Fault>;
}

struct Ring {
    memory: Vec<u8>,
    head: usize,
    used: usize,
}

impl Ring {
    fn new(memory: Vec<u8>) -> Ring {
        Ring { memory, head: 0, used: 0 }
    }

    fn push(&mut self, byte: u8) {
        let end = self.head + self.used;
        let size = self.memory.len();
        let at = if end < size { end } else { end - size };
        self.memory[at] = byte;
        self.used += 1;
    }

    fn pop(&mut self) -> u8 {
        let byte = self.memory[self.head];
        self.head += 1;
        if self.head == self.memory.len() {
            self.head = 0;
        }
        self.used -= 1;
        byte
    }
}

impl Link for Ring {
    fn send(&mut self, frame: &[u8]) -> Result<(), Fault> {
        if frame.is_empty() || frame.len() > 16 {
            return Err(fault(Layer::Link, 41));
        }
        if frame.len() + 1 > self.memory.len() - self.used {
            return Err(fault(Layer::Link, 43));
        }
        self.push(frame.len() as u8);
        for b in frame {
            self.push(*b);
        }
        Ok(())
    }

    fn take(&mut self, out: &mut [u8]) -> Result<Option<usize>, Fault> {
        if out.len() < 32 {
            return Err(fault(Layer::Link, 42));
        }
        if self.used == 0 {
            return Ok(None);
        }
        let n = self.pop() as usize;
        for place in &mut out[..n] {
            *place = self.pop();
        }
        Ok(Some(n))
    }
}

fn post<L: Link>(link: &mut L, frame: Frame) -> Result<(), Fault> {
    let octets = write(&frame)?;
    link.send(octets.as_slice())
}

fn pull<L: Link>(link: &mut L) -> Result<Option<Frame>, Fault> {
    let mut memory = [0u8; 32];
    match link.take(&mut memory)? {
        None => Ok(None),
        Some(n) => Ok(Some(read(&memory[..n])?)),
    }
}

// The terminal.

#[derive(Clone, Copy, Debug, PartialEq, Eq)]
enum Ask {
    Hold,
    Retrieve,
    Clear,
}

impl Ask {
    fn of(operation: Operation) -> Ask {
        match operation {
            Operation::Hold => Ask::Hold,
            Operation::Retrieve => Ask::Retrieve,
        }
    }

    fn body(self) -> Body {
        match self {
            Ask::Hold => Body::Request(Operation::Hold),
            Ask::Retrieve => Body::Request(Operation::Retrieve),
            Ask::Clear => Body::ClearRequest,
        }
    }
}

struct Call {
    id: CallId,
    own: bool,
    other: bool,
}

#[derive(Clone, Copy)]
#[allow(dead_code)]
struct Request {
    ask: Ask,
    call: CallId,
    countdown: u8,
    repeats: u8,
}

#[derive(Clone, Copy, Debug, PartialEq, Eq)]
enum Reply {
    Granted,
    Declined(Cause),
    Cleared,
}

#[derive(Clone, Copy, Debug, PartialEq, Eq)]
enum Received {
    Nothing,
    Stale,
    Notice(CallId, News),
    Closed(Ask, CallId, Reply),
}

struct Terminal {
    calls: Vec<Call>,
    last: u16,
    request: Option<Request>,
    exchange: bool,
}

impl Terminal {
    fn new() -> Terminal {
        Terminal { calls: Vec::with_capacity(8), last: 0, request: None, exchange: false }
    }

    fn connect(&mut self, call: CallId) -> Result<(), Fault> {
        if call.0 < 1 || call.0 > 16_383 || call.0 <= self.last {
            return Err(fault(Layer::Terminal, 24));
        }
        if self.calls.len() >= 8 {
            return Err(fault(Layer::Terminal, 25));
        }
        self.last = call.0;
        self.calls.push(Call { id: call, own: false, other: false });
        Ok(())
    }

    fn place_of(&self, id: CallId) -> Option<usize> {
        self.calls.iter().position(|c| c.id == id)
    }

    fn request<U: Link>(&mut self, up: &mut U, ask: Ask, call: CallId) -> Result<Option<Fault>, Fault> {
        if self.request.is_some() {
            return Err(fault(Layer::Terminal, 22));
        }
        let Some(i) = self.place_of(call) else {
            return Err(fault(Layer::Terminal, 21));
        };
        let own = self.calls[i].own;
        if ask == Ask::Hold && own || ask == Ask::Retrieve && !own {
            return Err(fault(Layer::Terminal, 23));
        }
        self.request = Some(Request { ask, call, countdown: 20, repeats: 0 });
        let frame = Frame { exchange: self.exchange, call, body: ask.body() };
        Ok(post(up, frame).err())
    }

    fn answered(&mut self, request: Request, ask: Ask, frame: Frame, reply: Reply) -> Received {
        if self.exchange != frame.exchange || request.call != frame.call || request.ask != ask {
            return Received::Stale;
        }
        if let Some(i) = self.place_of(frame.call) {
            match (ask, reply) {
                (Ask::Hold, Reply::Granted) => self.calls[i].own = true,
                (Ask::Retrieve, Reply::Granted) => self.calls[i].own = false,
                (_, Reply::Declined(Cause::CallNotThere)) | (_, Reply::Cleared) => {
                    self.calls.remove(i);
                }
                _ => {}
            }
        }
        self.request = None;
        self.exchange = !self.exchange;
        Received::Closed(ask, frame.call, reply)
    }

    fn informed(&mut self, call: CallId, news: News) -> Received {
        let Some(i) = self.place_of(call) else {
            return Received::Stale;
        };
        match news {
            News::PutOnHold => self.calls[i].other = true,
            News::Retrieved => self.calls[i].other = false,
            News::Released => {
                self.calls.remove(i);
            }
        }
        Received::Notice(call, news)
    }

    fn receive<D: Link>(&mut self, down: &mut D) -> Result<Received, Fault> {
        let Some(frame) = pull(down)? else {
            return Ok(Received::Nothing);
        };
        match (self.request, frame.body) {
            (_, Body::Request(_)) | (_, Body::ClearRequest) => Err(fault(Layer::Terminal, 26)),
            (_, Body::Notice(news)) => Ok(self.informed(frame.call, news)),
            (Some(request), Body::Answer(operation, verdict)) => {
                let reply = match verdict {
                    Verdict::Granted => Reply::Granted,
                    Verdict::Declined(cause) => Reply::Declined(cause),
                };
                Ok(self.answered(request, Ask::of(operation), frame, reply))
            }
            (Some(request), Body::ClearAnswer) => Ok(self.answered(request, Ask::Clear, frame, Reply::Cleared)),
            (None, _) => Ok(Received::Stale),
        }
    }
}

// The switch.

#[derive(Clone, Copy, Debug, PartialEq, Eq)]
struct User(u32);

impl User {
    fn is_user(self) -> bool {
        self.0 > 0 && self.0 <= 16_777_215
    }
}

trait Register {
    fn limit_of(&self, user: User) -> u8;
}

struct General {
    limit: u8,
}

impl Register for General {
    fn limit_of(&self, _: User) -> u8 {
        self.limit
    }
}

struct Pool {
    size: u8,
    used: u8,
}

impl Pool {
    fn draw(&mut self) -> bool {
        if self.used == self.size {
            return false;
        }
        self.used += 1;
        true
    }

    fn release(&mut self, leg: &mut Leg) {
        if leg.channel {
            leg.channel = false;
            self.used -= 1;
        }
    }
}

#[derive(Clone, Copy)]
struct Leg {
    user: User,
    channel: bool,
    news: Option<News>,
}

#[derive(Clone, Copy)]
struct Record {
    id: CallId,
    live: bool,
    first: Leg,
    second: Leg,
}

#[derive(Clone, Copy)]
enum Side {
    First,
    Second,
}

#[derive(Clone, Copy)]
enum Standing {
    Absent,
    Talking,
    OnHold,
}

#[derive(Clone, Copy, Debug, PartialEq, Eq)]
enum HeldLegs {
    Neither,
    First,
    Second,
    Both,
}

impl Record {
    fn side_of(&self, user: User) -> Option<Side> {
        if self.first.user == user {
            Some(Side::First)
        } else if self.second.user == user {
            Some(Side::Second)
        } else {
            None
        }
    }

    // A user's leg and the other one.
    fn legs(&mut self, side: Side) -> (&mut Leg, &mut Leg) {
        match side {
            Side::First => (&mut self.first, &mut self.second),
            Side::Second => (&mut self.second, &mut self.first),
        }
    }

    fn standing(&self, user: User) -> Standing {
        if !self.live {
            return Standing::Absent;
        }
        let carried = match self.side_of(user) {
            None => return Standing::Absent,
            Some(Side::First) => self.first.channel,
            Some(Side::Second) => self.second.channel,
        };
        if carried { Standing::Talking } else { Standing::OnHold }
    }

    fn held_legs(&self) -> HeldLegs {
        match (self.live && !self.first.channel, self.live && !self.second.channel) {
            (false, false) => HeldLegs::Neither,
            (true, false) => HeldLegs::First,
            (false, true) => HeldLegs::Second,
            (true, true) => HeldLegs::Both,
        }
    }

    fn news_for(&self, user: User) -> Option<News> {
        match self.side_of(user)? {
            Side::First => self.first.news,
            Side::Second => self.second.news,
        }
    }
}

fn rank(news: News) -> u8 {
    match news {
        News::PutOnHold => 1,
        News::Retrieved => 2,
        News::Released => 3,
    }
}

#[derive(Clone, Copy)]
struct Notice {
    call: CallId,
    news: News,
}

fn next_notice(records: &[Record], user: User) -> Option<Notice> {
    match records {
        [] => None,
        [first, rest @ ..] => {
            let one = first.news_for(user).map(|news| Notice { call: first.id, news });
            let other = next_notice(rest, user);
            match (one, other) {
                (None, q) => q,
                (Some(p), None) => Some(p),
                (Some(p), Some(q)) => Some(if rank(p.news) < rank(q.news) { q } else { p }),
            }
        }
    }
}

#[derive(Clone, Copy, Debug, PartialEq, Eq)]
enum Handled {
    Answered(Operation, CallId, Verdict),
    Cleared(CallId, HeldLegs),
}

impl Handled {
    fn answer(self, exchange: bool) -> Frame {
        match self {
            Handled::Answered(operation, call, verdict) => {
                Frame { exchange, call, body: Body::Answer(operation, verdict) }
            }
            Handled::Cleared(call, _) => Frame { exchange, call, body: Body::ClearAnswer },
        }
    }
}

#[derive(Clone, Copy, Debug, PartialEq, Eq)]
enum Served {
    Nothing,
    Fresh(Handled, Option<Fault>),
    Repeat(Handled, Option<Fault>),
}

#[derive(Clone, Copy, Debug, PartialEq, Eq)]
enum Notified {
    Nothing,
    Notice(CallId, News, Option<Fault>),
}

#[derive(Clone, Copy)]
struct Session {
    user: User,
    exchange: bool,
    handled: Option<Handled>,
}

struct Switch<R: Register> {
    register: R,
    pool: Pool,
    sessions: Vec<Session>,
    records: Vec<Record>,
    last: u16,
}

impl<R: Register> Switch<R> {
    fn new(register: R, channels: u8) -> Result<Switch<R>, Fault> {
        if channels < 1 || channels > 128 {
            return Err(fault(Layer::Making, 53));
        }
        Ok(Switch {
            register,
            pool: Pool { size: channels, used: 0 },
            sessions: Vec::with_capacity(32),
            records: Vec::with_capacity(64),
            last: 0,
        })
    }

    fn session_of(&self, user: User) -> Option<usize> {
        self.sessions.iter().position(|s| s.user == user)
    }

    fn record_of(&self, call: CallId) -> Option<usize> {
        self.records.iter().position(|r| r.id == call)
    }

    fn open_session(&mut self, user: User) -> Result<(), Fault> {
        if !user.is_user() {
            return Err(fault(Layer::Switch, 30));
        }
        if self.session_of(user).is_some() {
            return Err(fault(Layer::Switch, 32));
        }
        if self.sessions.len() >= 32 {
            return Err(fault(Layer::Switch, 33));
        }
        self.sessions.push(Session { user, exchange: true, handled: None });
        Ok(())
    }

    fn connect(&mut self, call: CallId, first: User, second: User) -> Result<(), Fault> {
        if !first.is_user() || !second.is_user() {
            return Err(fault(Layer::Switch, 30));
        }
        if first == second {
            return Err(fault(Layer::Switch, 34));
        }
        if call.0 < 1 || call.0 > 16_383 || call.0 <= self.last {
            return Err(fault(Layer::Switch, 35));
        }
        if self.records.len() >= 64 {
            return Err(fault(Layer::Switch, 36));
        }
        if self.pool.size - self.pool.used < 2 {
            return Err(fault(Layer::Switch, 37));
        }
        self.pool.used += 2;
        let leg = |user| Leg { user, channel: true, news: None };
        self.records.push(Record { id: call, live: true, first: leg(first), second: leg(second) });
        self.last = call.0;
        Ok(())
    }

    fn standing(&self, user: User, call: CallId) -> (Standing, usize) {
        match self.record_of(call) {
            None => (Standing::Absent, 0),
            Some(i) => (self.records[i].standing(user), i),
        }
    }

    fn hold(&mut self, limit: u8, user: User, call: CallId) -> Verdict {
        let (standing, i) = self.standing(user, call);
        match standing {
            Standing::Absent => return Verdict::Declined(Cause::CallNotThere),
            Standing::OnHold => return Verdict::Declined(Cause::AlreadyOnHold),
            Standing::Talking => {}
        }
        if limit == 0 {
            return Verdict::Declined(Cause::NotSubscribed);
        }
        let held = self.records.iter().filter(|r| matches!(r.standing(user), Standing::OnHold)).count();
        if held >= usize::from(limit) {
            return Verdict::Declined(Cause::LimitReached);
        }
        let record = &mut self.records[i];
        if let Some(side) = record.side_of(user) {
            let (own, other) = record.legs(side);
            self.pool.release(own);
            other.news = Some(News::PutOnHold);
        }
        Verdict::Granted
    }

    fn retrieve(&mut self, user: User, call: CallId) -> Verdict {
        let (standing, i) = self.standing(user, call);
        match standing {
            Standing::Absent => return Verdict::Declined(Cause::CallNotThere),
            Standing::Talking => return Verdict::Declined(Cause::NotOnHold),
            Standing::OnHold => {}
        }
        if !self.pool.draw() {
            return Verdict::Declined(Cause::NoChannel);
        }
        let record = &mut self.records[i];
        if let Some(side) = record.side_of(user) {
            let (own, other) = record.legs(side);
            own.channel = true;
            other.news = Some(News::Retrieved);
        }
        Verdict::Granted
    }

    fn clear_for(&mut self, user: User, call: CallId) -> HeldLegs {
        let Some(i) = self.record_of(call) else {
            return HeldLegs::Neither;
        };
        let record = &mut self.records[i];
        if !record.live {
            return HeldLegs::Neither;
        }
        let Some(side) = record.side_of(user) else {
            return HeldLegs::Neither;
        };
        let held = record.held_legs();
        record.live = false;
        let (own, other) = record.legs(side);
        self.pool.release(own);
        self.pool.release(other);
        own.news = None;
        other.news = Some(News::Released);
        held
    }

    fn serve<U: Link, D: Link>(&mut self, user: User, up: &mut U, down: &mut D) -> Result<Served, Fault> {
        if !user.is_user() {
            return Err(fault(Layer::Switch, 30));
        }
        let Some(i) = self.session_of(user) else {
            return Err(fault(Layer::Switch, 31));
        };
        let Some(frame) = pull(up)? else {
            return Ok(Served::Nothing);
        };
        let ask = match frame.body {
            Body::Request(operation) => Ask::of(operation),
            Body::ClearRequest => Ask::Clear,
            _ => return Err(fault(Layer::Switch, 39)),
        };
        if frame.exchange == self.sessions[i].exchange {
            let Some(handled) = self.sessions[i].handled else {
                return Err(fault(Layer::Switch, 40));
            };
            let sent = post(down, handled.answer(frame.exchange));
            return Ok(Served::Repeat(handled, sent.err()));
        }
        let limit = self.register.limit_of(user);
        let handled = match ask {
            Ask::Hold => Handled::Answered(Operation::Hold, frame.call, self.hold(limit, user, frame.call)),
            Ask::Retrieve => Handled::Answered(Operation::Retrieve, frame.call, self.retrieve(user, frame.call)),
            Ask::Clear => Handled::Cleared(frame.call, self.clear_for(user, frame.call)),
        };
        self.sessions[i] = Session { user, exchange: frame.exchange, handled: Some(handled) };
        let sent = post(down, handled.answer(frame.exchange));
        Ok(Served::Fresh(handled, sent.err()))
    }

    fn notify<D: Link>(&mut self, user: User, down: &mut D) -> Result<Notified, Fault> {
        if !user.is_user() {
            return Err(fault(Layer::Switch, 30));
        }
        let Some(notice) = next_notice(&self.records, user) else {
            return Ok(Notified::Nothing);
        };
        if let Some(i) = self.record_of(notice.call) {
            let record = &mut self.records[i];
            if let Some(side) = record.side_of(user) {
                record.legs(side).0.news = None;
            }
            if !record.live && record.first.news.is_none() && record.second.news.is_none() {
                self.records.remove(i);
            }
        }
        let frame = Frame { exchange: false, call: notice.call, body: Body::Notice(notice.news) };
        let sent = post(down, frame);
        Ok(Notified::Notice(notice.call, notice.news, sent.err()))
    }
}

// The measurement, as in crates/ends_bench.

const ROUNDS: u32 = 100_000;

struct Bench {
    switch: Switch<General>,
    one: Terminal,
    two: Terminal,
    up: Ring,
    down: Ring,
    other_down: Ring,
}

impl Bench {
    // Users 1 and 2 in the last of so many calls, with the last of so many sessions.
    fn new(calls: u16, sessions: u32) -> Result<Bench, Fault> {
        let mut bench = Bench {
            switch: Switch::new(General { limit: 7 }, 128)?,
            one: Terminal::new(),
            two: Terminal::new(),
            up: Ring::new(vec![0; 64]),
            down: Ring::new(vec![0; 64]),
            other_down: Ring::new(vec![0; 64]),
        };
        for user in 3..=sessions {
            bench.switch.open_session(User(user))?;
        }
        bench.switch.open_session(User(2))?;
        bench.switch.open_session(User(1))?;
        for call in 1..calls {
            bench.switch.connect(CallId(call), User(3), User(4))?;
        }
        bench.switch.connect(CallId(calls), User(1), User(2))?;
        bench.one.connect(CallId(calls))?;
        bench.two.connect(CallId(calls))?;
        Ok(bench)
    }

    // User 1 asks, is served, and receives the answer: 1 if it is granted.
    fn exchange(&mut self, ask: Ask, call: CallId) -> u32 {
        let _ = self.one.request(&mut self.up, ask, call);
        let _ = self.switch.serve(User(1), &mut self.up, &mut self.down);
        match self.one.receive(&mut self.down) {
            Ok(Received::Closed(_, _, Reply::Granted)) => 1,
            _ => 0,
        }
    }

    // User 2 is sent his notice, and receives it: 1 if he has one.
    fn notice(&mut self) -> u32 {
        let _ = self.switch.notify(User(2), &mut self.other_down);
        match self.two.receive(&mut self.other_down) {
            Ok(Received::Notice(_, _)) => 1,
            _ => 0,
        }
    }

    fn exchanges(&mut self, call: CallId) -> u32 {
        let mut sum = 0u32;
        for _ in 0..ROUNDS {
            sum = sum.wrapping_add(self.exchange(Ask::Hold, call));
            sum = sum.wrapping_add(self.exchange(Ask::Retrieve, call));
        }
        sum
    }

    fn exchanges_with_notices(&mut self, call: CallId) -> u32 {
        let mut sum = 0u32;
        for _ in 0..ROUNDS {
            sum = sum.wrapping_add(self.exchange(Ask::Hold, call));
            sum = sum.wrapping_add(self.notice());
            sum = sum.wrapping_add(self.exchange(Ask::Retrieve, call));
            sum = sum.wrapping_add(self.notice());
        }
        sum
    }
}

fn measure(name: &str, calls: u16, sessions: u32) -> Result<(), Fault> {
    let mut bench = Bench::new(calls, sessions)?;
    let start = Instant::now();
    let sum = bench.exchanges(CallId(calls));
    eprintln!("{name}-exchanges {}", start.elapsed().as_nanos());
    println!("{name}-exchanges {sum}");
    let start = Instant::now();
    let sum = bench.exchanges_with_notices(CallId(calls));
    eprintln!("{name}-notices {}", start.elapsed().as_nanos());
    println!("{name}-notices {sum} {}", bench.switch.pool.used);
    Ok(())
}

fn main() {
    for (name, calls, sessions) in [("small", 1, 2), ("full", 64, 32)] {
        if let Err(fault) = measure(name, calls, sessions) {
            eprintln!("{fault:?}");
        }
    }
}
