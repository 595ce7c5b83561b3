//! Sessions with hours beside sessions without (document 02, [10]): a push that is to start outside the hours is 25 where nothing else refuses it,
//! asks nothing and alters nothing; every other call is the same on both, to the last byte. 000 has no hours, and is not asked here.
use crate::call::{Answer, Call, What, Why};
use crate::gen::{self, Kind};
use crate::intended;
use crate::ours::Host;
use crate::plan::List;
use crate::rng::{mixed, Rng};
use crate::scripted::{shared, Shared};
use crate::steps::{self, Made};
use yuglasno::raw::HOURS_IN_RECORD;
use yuglasno::Settings;

/// The answer to a push outside the hours.
pub const OUTSIDE: u32 = 25;
const DAY: u32 = 86_400;
const DAY_MINUTES: u32 = 1_440;

/// A week by its days from Monday on: the minutes that each opens and closes at.
#[derive(Debug)]
struct Week([Option<(u32, u32)>; 7]);

impl Week {
    fn random(rng: &mut Rng) -> Week {
        let open = rng.pick(&[0, 15, 50, 90, 100]);
        Week(std::array::from_fn(|_| rng.chance(open).then(|| span(rng))))
    }

    fn file(&self) -> String {
        let line = |(day, span): (usize, &Option<(u32, u32)>)| span.map(|(open, close)| format!("{day},{open},{close}\n"));
        let lines: String = self.0.iter().enumerate().filter_map(line).collect();
        format!("day,open,close\n{lines}")
    }

    /// "open included and close excluded; 1970-01-01 was a Thursday"
    fn lets(&self, moment: u32) -> bool {
        let (day, minute) = ((moment / DAY + 3) % 7, moment % DAY / 60);
        self.0[day as usize].is_some_and(|(open, close)| open <= minute && minute < close)
    }

    /// A moment of any year, often a second before, at or behind one where a span begins or ends.
    fn moment(&self, rng: &mut Rng) -> u32 {
        let day = rng.below(u32::MAX as usize / DAY as usize) as u32;
        let edge = match self.0[((day + 3) % 7) as usize] {
            Some((open, close)) if rng.chance(70) => rng.pick(&[open, close]),
            _ => rng.below(DAY_MINUTES as usize) as u32,
        };
        (day * DAY + 60 * edge).wrapping_add(rng.pick(&[0, 0, 1, 30, 59, u32::MAX]))
    }
}

fn span(rng: &mut Rng) -> (u32, u32) {
    let open = if rng.chance(30) { rng.pick(&[0, 420, DAY_MINUTES - 1]) } else { rng.below(DAY_MINUTES as usize) as u32 };
    let close = open + 1 + rng.below((DAY_MINUTES - open) as usize) as u32;
    (open, if rng.chance(20) { DAY_MINUTES } else { close })
}

/// What was compared.
#[derive(Default)]
struct Tally {
    lists: usize,
    calls: usize,
    pushes: usize,
    turned: usize,
    /// pushes outside the hours that something else refused
    refused: usize,
}

fn pushes(call: &Call) -> bool {
    matches!(call.what, What::SendStart | What::SendV2Start | What::Send | What::SendV2)
}

/// The two sessions, each on a channel of its own.
struct Pair<'l> {
    timed: Host<Shared<'l>>,
    plain: Host<Shared<'l>>,
    ended: bool,
}

impl<'l> Pair<'l> {
    fn open(list: &'l List, week: &Week) -> Result<Self, String> {
        let mut settings = Settings::published();
        settings.load_hours(week.file().as_bytes()).map_err(|error| format!("{week:?}: {error}"))?;
        let opened = |settings| Host::open_with(settings, &list.banner, list.rx.clone(), shared(list));
        let said = |number| format!("opening was answered {number}");
        let (timed, plain) = (opened(&settings).map_err(said)?, opened(&Settings::published()).map_err(said)?);
        for host in [&timed, &plain] {
            host.wire.borrow_mut().receives_at(host.rx.as_ptr() as usize);
        }
        Ok(Pair { timed, plain, ended: false })
    }

    fn call(&mut self, call: &Call, list: &List, week: &Week, tally: &mut Tally) -> Result<(), String> {
        let outside = pushes(call) && !week.lets(call.moment);
        let refused = self.ended || !intended::goes_on(call, &list.banner);
        (tally.calls, tally.pushes) = (tally.calls + 1, tally.pushes + usize::from(pushes(call)));
        if outside && !refused {
            tally.turned += 1;
            return self.turned(call);
        }
        tally.refused += usize::from(outside);
        let (timed, plain) = (made(&mut self.timed, call), made(&mut self.plain, call));
        self.ended |= call.what == What::Quit;
        self.same((&timed, &plain))
    }

    /// The call on the session with hours alone.
    fn turned(&mut self, call: &Call) -> Result<(), String> {
        let before = self.timed.clone();
        let made = made(&mut self.timed, call);
        let host = &self.timed;
        let told = made.answer == Answer::Not(Why::Refused(OUTSIDE)) && (host.at(1), host.at(2), host.reads().0) == (0, 0, 0);
        let kept = (before.rec, &before.rx, &before.msg) == (host.rec, &host.rx, &host.msg);
        let asked = host.wire.borrow_mut().take_ops();
        match told && kept && asked.is_empty() {
            true => Ok(()),
            false => Err(format!("{OUTSIDE} expected: {:?}, memory as it was: {kept}, asked {asked:?}", made.answer)),
        }
    }

    fn same(&mut self, (timed, plain): (&Made, &Made)) -> Result<(), String> {
        let Pair { timed: one, plain: two, .. } = self;
        let ops = [&*one, &*two].map(|host| host.wire.borrow_mut().take_ops());
        let answers = (&timed.answer, &timed.entries) == (&plain.answer, &plain.entries) && one.out == two.out;
        let memory = (&one.rx, &one.msg, &one.rec[..HOURS_IN_RECORD]) == (&two.rx, &two.msg, &two.rec[..HOURS_IN_RECORD]);
        match answers && memory && ops[0] == ops[1] {
            true => Ok(()),
            false => Err(format!("with hours {:?}\n  without {:?}, or they ask or keep other bytes", timed.answer, plain.answer)),
        }
    }
}

fn made<'l>(host: &mut Host<Shared<'l>>, call: &Call) -> Made {
    host.wire.borrow_mut().lent(call);
    host.out.fill(0xEE);
    steps::make(host, call, &mut |host, step, lent, a, b| host.step(step, lent, a, b))
}

fn compare(seed: u64, tally: &mut Tally) -> Result<(), String> {
    let rng = &mut Rng::new(mixed(seed, 10));
    let (mut list, week) = (gen::list(seed, Kind::Any), Week::random(rng));
    if list.rx.len() < 8 {
        return Ok(());
    }
    list.calls.iter_mut().for_each(|call| call.moment = week.moment(rng));
    let mut pair = Pair::open(&list, &week)?;
    let hours = pair.timed.rec[HOURS_IN_RECORD..].to_vec();
    tally.lists += 1;
    for (i, call) in list.calls.iter().enumerate() {
        pair.call(call, &list, &week, tally).map_err(|text| format!("{list}{week:?}\ncall {i} ({call}):\n  {text}"))?;
    }
    match pair.timed.rec[HOURS_IN_RECORD..] == hours {
        true => Ok(()),
        false => Err(format!("{list}{week:?}\nthe session's hours are others")),
    }
}

/// Compares `count` lists; false at the first difference, which is printed with the list, and where nothing was turned away or let in.
pub fn run(count: u64, seed: u64) -> bool {
    let mut tally = Tally::default();
    for i in 0..count {
        if let Err(text) = compare(mixed(seed, i), &mut tally) {
            println!("{text}\n\nlist {i} of seed {seed}, with hours, differs");
            return false;
        }
    }
    let Tally { lists, calls, pushes, turned, refused } = tally;
    println!(
        "{lists} lists with hours, {calls} calls, {pushes} pushes: {turned} outside the hours were 25, {refused} refused by another number; \
         all else as without hours"
    );
    [turned, refused, pushes - turned - refused].iter().all(|count| *count > 0)
}
