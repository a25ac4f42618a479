//! A part: its state, and the calls that select it and that concern its power. `bytes` and `release` have the other two calls.

use std::marker::PhantomData;

use crate::cells::Cells;
use crate::dialect::Dialect;
use crate::memory::Memory;
use crate::refusal::{Answer, Refusal};
use crate::selection::Selection;
use crate::watch::{Doing, Note, Watch};

/// Work that goes over all pages, one at each tick.
#[derive(Clone, Copy, Debug, PartialEq, Eq)]
pub enum Job {
    Storing,
    Recalling,
    Waking,
}

/// What a part does while it has power.
#[derive(Clone, Copy, Debug, PartialEq, Eq)]
pub enum Activity {
    Idle,
    Busy { job: Job, next_page: usize },
}

impl Activity {
    pub fn start(job: Job) -> Self {
        Self::Busy { job, next_page: 0 }
    }

    pub fn doing(self) -> Doing {
        match self {
            Self::Idle => Doing::Idle,
            Self::Busy { job: Job::Storing, .. } => Doing::Storing,
            Self::Busy { job: Job::Recalling, .. } => Doing::Recalling,
            Self::Busy { job: Job::Waking, .. } => Doing::Waking,
        }
    }
}

/// A part of dialect `D` above cells `C`, watched by `W`.
pub struct Part<D, C, W> {
    pub(crate) memory: Memory<C, W>,
    alive: bool,
    /// None while power is off.
    pub(crate) activity: Option<Activity>,
    pub(crate) selection: Selection,
    /// R, the status bits that are kept.
    pub(crate) status: u8,
    /// Whether writes are enabled.
    pub(crate) latch: bool,
    /// Whether a secure frame came damaged, and none was done since.
    pub(crate) fail: bool,
    dialect: PhantomData<D>,
}

impl<D: Dialect, C: Cells, W: Watch> Part<D, C, W> {
    /// A part as made: off and unselected.
    pub fn new(cells: C, watch: W) -> Self {
        let memory = Memory::new(cells, watch);
        Self {
            alive: D::is_alive(memory.size()),
            memory,
            activity: None,
            selection: Selection::Unselected,
            status: 0,
            latch: false,
            fail: false,
            dialect: PhantomData,
        }
    }

    pub fn cells(&self) -> &C {
        self.memory.cells()
    }

    pub fn watch(&mut self) -> &mut W {
        &mut self.memory.watch
    }

    pub fn into_watch(self) -> W {
        self.memory.watch
    }

    /// What the part is doing, if it is alive and on. All calls but the power-up begin with this question.
    pub(crate) fn working(&self) -> Answer<Activity> {
        if !self.alive {
            return Err(Refusal::Dead);
        }
        self.activity.ok_or(Refusal::PowerOff)
    }

    pub fn select(&mut self) -> Answer {
        self.working()?;
        if self.selection.is_open() {
            return Err(Refusal::AlreadySelected);
        }
        self.selection = Selection::Opened;
        Ok(())
    }

    /// Works on one page, if there is something to do, and answers the pages still to go.
    pub fn tick(&mut self) -> Answer<usize> {
        let Activity::Busy { job, next_page: page } = self.working()? else {
            return Ok(0);
        };
        match job {
            Job::Storing => self.memory.keep(page),
            Job::Recalling | Job::Waking => self.memory.recall(page),
        }
        let next_page = page + 1;
        let to_go = self.memory.pages() - next_page;
        if to_go > 0 {
            self.activity = Some(Activity::Busy { job, next_page });
        } else {
            self.activity = Some(Activity::Idle);
            if job == Job::Storing {
                self.memory.written = false;
            }
        }
        Ok(to_go)
    }

    /// Power goes off. What is left of the charge may still keep pages.
    pub fn cut(&mut self, charged: bool) -> Answer {
        let activity = self.working()?;
        self.memory.watch.note(Note::Cut { charged, found: activity.doing() });
        if charged {
            for page in self.first_page_to_keep(activity)..self.memory.pages() {
                self.memory.keep(page);
            }
        }
        self.memory.fade();
        self.activity = None;
        self.selection = Selection::Unselected;
        Ok(())
    }

    /// Where a charged cut begins to keep pages. It goes on to the last page; one behind that stands for none.
    fn first_page_to_keep(&self, activity: Activity) -> usize {
        match activity {
            Activity::Busy { job: Job::Storing, next_page } => next_page,
            Activity::Idle if self.memory.written && D::power_store(self.status) => 0,
            _ => self.memory.pages(),
        }
    }

    /// Power returns. The part is busy until every page was recalled.
    pub fn power_up(&mut self) -> Answer {
        if !self.alive {
            return Err(Refusal::Dead);
        }
        if self.activity.is_some() {
            return Err(Refusal::AlreadyOn);
        }
        self.latch = false;
        self.fail = false;
        self.memory.written = false;
        self.activity = Some(Activity::start(Job::Waking));
        Ok(())
    }
}
