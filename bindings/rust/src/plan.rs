//! Plans that are kept.

use crate::call::{answered, answered_bytes, ROOM};
use crate::sys::{self, VxBuffer, VxPlace, VxPlan};
use crate::Error;
use std::cell::UnsafeCell;
use std::ptr;

/// A plan of scans by an expression over batches of rows of one type, made once for all of them.
///
/// ```
/// let mut plan = vx::Plan::new("x + 1", "{x=i32?}")?;
/// assert_eq!(plan.paths()?, "[[\"x\"]]\n");
/// let numbers: Vec<u8> = [1i32, 0, 5].iter().flat_map(|x| x.to_le_bytes()).collect();
/// // of the rows their validity; of `x` its validity, a bit for each row, and its values
/// assert_eq!(plan.scan(3, &[&[], &[0b101], &numbers])?, "2\nnull\n6\n");
/// # Ok::<(), vx::Error>(())
/// ```
///
/// It is `Send`, and a clone shares it at the cost of a count: each thread has a clone of its own. So it need
/// not be `Sync`, and isn't:
///
/// ```
/// let plan = vx::Plan::new("x > 1", "{x=i32}")?;
/// let threads = [1i32, 2].map(|x| {
///     let mut plan = plan.clone();
///     std::thread::spawn(move || plan.select(1, &[&[], &[], &x.to_le_bytes()]))
/// });
/// let found = threads.map(|thread| thread.join().expect("it ends"));
/// assert_eq!(found, [Ok(vec![false]), Ok(vec![true])]);
/// # Ok::<(), vx::Error>(())
/// ```
///
/// ```compile_fail,E0277
/// fn shared<T: Sync>() {}
/// shared::<vx::Plan>();
/// ```
#[derive(Debug)]
pub struct Plan {
    // (a call takes the plan out of it, and puts it back)
    handle: UnsafeCell<VxPlan>,
}

// SAFETY: a handle goes to any thread that makes its calls one at a time, and a `Plan` isn't `Sync`.
unsafe impl Send for Plan {}

impl Plan {
    /// The plan of the expression over rows of the schema's type.
    ///
    /// # Errors
    ///
    /// As of [`check`](crate::check).
    pub fn new(expression: impl AsRef<[u8]>, schema: impl AsRef<[u8]>) -> Result<Plan, Error> {
        let (expression, schema) = (expression.as_ref(), schema.as_ref());
        let plan = Plan::none();
        answered(ROOM, |buffer, length, answer| {
            // SAFETY: as in `page`, and the handle holds no plan.
            unsafe {
                sys::vx_plan_new(
                    expression.as_ptr().cast(),
                    expression.len(),
                    schema.as_ptr().cast(),
                    schema.len(),
                    plan.handle.get(),
                    buffer,
                    length,
                    answer,
                )
            }
        })?;
        Ok(plan)
    }

    fn none() -> Plan {
        Plan {
            handle: UnsafeCell::new(VxPlan {
                at: ptr::null_mut(),
            }),
        }
    }

    /// Another handle of the plan, as a clone is.
    ///
    /// # Errors
    ///
    /// `OutOfMemory` alone.
    pub fn try_clone(&self) -> Result<Plan, Error> {
        let other = Plan::none();
        // SAFETY: the handle holds a plan, the other none, and no call is under way on either: none of the
        // calls calls back, and a `Plan` isn't `Sync`.
        let status = unsafe { sys::vx_plan_share(self.handle.get(), other.handle.get()) };
        match status {
            sys::ANSWERED => Ok(other),
            status => Err(Error::of(status, String::new(), &VxPlace::default())),
        }
    }

    /// The type of the plan's batches, as source text on a line.
    ///
    /// # Errors
    ///
    /// `OutOfMemory` alone.
    pub fn scope(&mut self) -> Result<String, Error> {
        answered(ROOM, |buffer, length, answer| {
            // SAFETY: as for `paths`.
            unsafe { sys::vx_plan_scope(self.handle.get(), buffer, length, answer) }
        })
    }

    /// The paths of the fields that the plan reads: a line of JSON, an array of them, each an array of its
    /// names. The path without a name is the whole row.
    ///
    /// # Errors
    ///
    /// `OutOfMemory` alone.
    pub fn paths(&mut self) -> Result<String, Error> {
        answered(ROOM, |buffer, length, answer| {
            // SAFETY: as in `page`, and the handle holds a plan, and no other call is under way.
            unsafe { sys::vx_plan_paths(self.handle.get(), buffer, length, answer) }
        })
    }

    /// What the expression means at each row of a batch, as a line of JSON each.
    ///
    /// The batch is a column of the schema's type, as the Arrow columnar format lays it out. Its buffers are
    /// in the order of `pyarrow.Array.buffers()`: depth first, and of each type
    ///
    /// | Type | Buffers |
    /// |---|---|
    /// | `bool`, whole numbers, `f32`, `f64` | validity, values |
    /// | `date`, `timestamp(..)`, `decimal(..)` | validity, values of 32, 64 and 128 bits |
    /// | `utf8`, `binary` | validity, offsets of 32 bits, bytes |
    /// | `list` | validity, offsets of 32 bits, the buffers of the items |
    /// | `fixed_size_list` | validity, the buffers of the items |
    /// | a struct | validity, the buffers of each field |
    ///
    /// An empty validity says that no row is null.
    ///
    /// # Errors
    ///
    /// `BadData` for buffers that aren't laid out so, and `Faulted` where the expression faults; the
    /// `record` of the place says at which row.
    pub fn scan(&mut self, rows: usize, buffers: &[&[u8]]) -> Result<String, Error> {
        let bytes = buffers
            .iter()
            .fold(0, |sum: usize, it| sum.saturating_add(it.len()));
        // (enough for numbers, and no more than the buffers can have rows)
        let room = ROOM.saturating_add(rows.saturating_mul(24).min(bytes.saturating_mul(8)));
        let lent = lent(buffers);
        answered(room, |buffer, length, answer| {
            // SAFETY: as for `paths`; the buffers are lent to the call, which tests what is in them.
            unsafe {
                sys::vx_plan_scan(
                    self.handle.get(),
                    rows,
                    lent.as_ptr(),
                    lent.len(),
                    buffer,
                    length,
                    answer,
                )
            }
        })
    }

    /// At which rows of a batch the expression is true: where it is false or null, a row isn't selected.
    ///
    /// ```
    /// let mut plan = vx::Plan::new("x > 1", "{x=i32?}")?;
    /// let numbers: Vec<u8> = [1i32, 0, 5].iter().flat_map(|x| x.to_le_bytes()).collect();
    /// assert_eq!(plan.select(3, &[&[], &[0b101], &numbers])?, [false, false, true]);
    /// # Ok::<(), vx::Error>(())
    /// ```
    ///
    /// The batch is as [`scan`](Plan::scan) takes it.
    ///
    /// # Errors
    ///
    /// As of `scan`, and `Refused` for an expression that isn't of truth values.
    pub fn select(&mut self, rows: usize, buffers: &[&[u8]]) -> Result<Vec<bool>, Error> {
        let lent = lent(buffers);
        let bytes = answered_bytes(ROOM, |buffer, length, answer| {
            // SAFETY: as for `scan`.
            unsafe {
                sys::vx_plan_select(
                    self.handle.get(),
                    rows,
                    lent.as_ptr(),
                    lent.len(),
                    buffer,
                    length,
                    answer,
                )
            }
        })?;
        Ok(bytes.into_iter().map(|byte| byte == 1).collect())
    }
}

fn lent(buffers: &[&[u8]]) -> Vec<VxBuffer> {
    buffers.iter().copied().map(VxBuffer::of).collect()
}

impl Clone for Plan {
    /// Another handle of the plan, which isn't copied.
    ///
    /// # Panics
    ///
    /// Where memory runs out, which [`try_clone`](Plan::try_clone) tells.
    fn clone(&self) -> Plan {
        self.try_clone().expect("memory for a handle of a plan")
    }
}

impl Drop for Plan {
    fn drop(&mut self) {
        // SAFETY: the handle holds a plan or none, and no call is under way.
        unsafe { sys::vx_plan_free(self.handle.get()) };
    }
}
