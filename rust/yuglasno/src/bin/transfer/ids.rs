//! The ids file of `--ids`, and what is said of it where a reply has another id.
use crate::arguments::Plan;
use crate::settings_file::{self, named};
use crate::stop::Stop;

/// The answer to an id that does not belong there.
const OTHER_ID: u8 = 15;

/// The plan's settings with the ids of its file, if it names one.
pub fn loaded(plan: &mut Plan) -> Result<(), Stop> {
    let Some(file) = &plan.ids else { return Ok(()) };
    settings_file::loaded("ids", file, |opened| plan.settings.read_ids(opened))
}

/// The same stop, and where an id did not belong there, what may help.
pub fn hinted(mut stop: Stop, plan: &Plan) -> Stop {
    if stop.status == OTHER_ID {
        stop.text += &match &plan.ids {
            None => "; a panel with ids of its own wants --ids FILE".to_string(),
            Some(file) => format!("; {} may not be this panel's table", named("ids", file)),
        };
    }
    stop
}
