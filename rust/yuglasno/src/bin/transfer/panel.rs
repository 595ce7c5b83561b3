//! The panel of a run: its place, and a session there, which may be opened anew where a FAIL has ended it.
use crate::arguments::{Place, Plan};
use crate::card::{watched, Counted};
use crate::peer::Peer;
use crate::place::{self, Reached};
use crate::stop::Stop;
use yuglasno::Session;

/// The numbers of answers: a path that is too long or has a NUL, a panel's FAIL, its errno.
pub const LONG_PATH: u8 = 7;
pub const NUL_IN_PATH: u8 = 8;
pub const FAIL: u8 = 14;
pub const ERRNO: u8 = 16;

pub struct Panel<'p> {
    plan: &'p Plan,
    place: Reached<'p>,
    counted: Counted<'p>,
}

impl<'p> Panel<'p> {
    pub fn opened(plan: &'p Plan) -> Result<Self, Stop> {
        let mut place = place::reached(plan)?;
        place.link = watched(place.link, plan.card.as_ref());
        let (rx, msg) = (vec![0; plan.capacity], vec![0; plan.capacity]);
        let session = Session::open_with(&plan.settings, &place.banner, rx, msg)?;
        Ok(Self { plan, place, counted: Counted::new(session, plan.card.as_ref()) })
    }

    pub fn peer(&mut self) -> Peer<'_> {
        Peer { session: &mut self.counted.session, link: &mut *self.place.link }
    }

    /// A session of its own in the place of one that a FAIL has ended.
    pub fn reopen(&mut self) -> Result<(), Stop> {
        if matches!(self.plan.place, Place::Stdio) {
            let why = "a FAIL has ended the session, and standard input and output can't be opened anew";
            return Err(Stop::new(FAIL, "the panel", why));
        }
        let fresh = Self::opened(self.plan)?;
        std::mem::replace(self, fresh).leave();
        Ok(())
    }

    /// Ends the session and lets go of the panel.
    pub fn quit(mut self) -> Result<(), Stop> {
        let quit = self.counted.session.quit(&mut *self.place.link).map_err(Stop::from);
        self.place.leave();
        quit
    }

    /// Lets go of the panel, without a QUIT.
    pub fn leave(self) {
        self.place.leave();
    }
}
