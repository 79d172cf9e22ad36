//! Callbacks.

use crate::{Call, Engine, Request};
use std::fmt;
use std::mem;
use std::sync::atomic::{AtomicBool, Ordering};
use std::sync::Arc;

type Before = Box<dyn FnMut(&mut Engine, &Request) + Send>;
type After = Box<dyn FnMut(&mut Engine, &Call) + Send>;

/// The callbacks for `on_call`.
///
/// ```
/// use lucernetick::{Engine, OnCall};
///
/// let mut engine = Engine::new()?;
/// let hook = engine.on_call(OnCall::default().after(|_, call| println!("{}", call)));
/// hook.end();
/// # Ok::<(), lucernetick::Error>(())
/// ```
#[derive(Default)]
#[must_use]
pub struct OnCall {
    before: Option<Before>,
    after: Option<After>,
}

impl OnCall {
    /// Calls this with each request that is about to be read.
    pub fn before(self, work: impl FnMut(&mut Engine, &Request) + Send + 'static) -> Self {
        OnCall { before: Some(Box::new(work)), ..self }
    }

    /// Calls this with the record of each call that took effect.
    pub fn after(self, work: impl FnMut(&mut Engine, &Call) + Send + 'static) -> Self {
        OnCall { after: Some(Box::new(work)), ..self }
    }
}

impl fmt::Debug for OnCall {
    fn fmt(&self, f: &mut fmt::Formatter<'_>) -> fmt::Result {
        f.debug_struct("OnCall").finish_non_exhaustive()
    }
}

/// The callbacks that `on_call` added. They are called until its `end`. Its clones are the same.
#[derive(Clone, Debug)]
pub struct Hook {
    has_ended: Arc<AtomicBool>,
}

impl Hook {
    /// Ends them: they are called no more.
    pub fn end(&self) {
        self.has_ended.store(true, Ordering::SeqCst);
    }

    fn has_ended(&self) -> bool {
        self.has_ended.load(Ordering::SeqCst)
    }
}

/// The callbacks of an engine.
#[derive(Default)]
pub(crate) struct Hooks(Vec<(Hook, OnCall)>);

impl Hooks {
    pub(crate) fn is_empty(&self) -> bool {
        self.0.is_empty()
    }
}

impl Engine {
    /// Calls callbacks before and after calls. They may use the engine, except to feed a session or
    /// to give it a turn.
    pub fn on_call(&mut self, callbacks: OnCall) -> Hook {
        let hook = Hook { has_ended: Arc::default() };
        self.hooks.0.push((hook.clone(), callbacks));
        hook
    }

    pub(crate) fn call_before(&mut self, request: &Request) {
        self.with_hooks(|engine, callbacks| {
            if let Some(before) = &mut callbacks.before {
                before(engine, request);
            }
        });
    }

    pub(crate) fn call_after(&mut self, call: &Call) {
        self.with_hooks(|engine, callbacks| {
            if let Some(after) = &mut callbacks.after {
                after(engine, call);
            }
        });
    }

    /// Callbacks may add others, which then come last.
    fn with_hooks(&mut self, mut work: impl FnMut(&mut Engine, &mut OnCall)) {
        let mut hooks = mem::take(&mut self.hooks.0);
        for (hook, callbacks) in &mut hooks {
            if !hook.has_ended() {
                work(self, callbacks);
            }
        }
        hooks.append(&mut self.hooks.0);
        hooks.retain(|(hook, _)| !hook.has_ended());
        self.hooks.0 = hooks;
    }
}
