//! Plans how a quantum-circuit simulator cuts one wide register into small independent
//! ones. The planning is done by a static library that is proved, for every input, to
//! give the plan or the first refusal of its definition; this crate calls it and hands
//! its words back as typed values.
//!
//! Two ways to call it:
//!
//! * `plan` takes a head and records, allocates its own buffers and returns an owned
//!   `ActiveComponentPlan`.
//! * [`plan_into`] takes record words and [`Buffers`] that the caller lends, and allocates
//!   nothing. The rows are then read from the buffers, one at a time.
//!
//! A plan that is used often can be kept as a file: `store` and [`store_into`] plan and give the
//! file's bytes, `load` and [`load_into`] read them back.
//!
//! ```
//! # #[cfg(feature = "std")] {
//! use midvokt::{plan, Head, Reason, Record};
//!
//! let head = Head::new(3);
//! let records = [Record::rotation(3, 0b101, 0, 0, 0.0)];
//! let plan = plan(&head, &records).unwrap();
//! assert_eq!(plan.merge_components, [0, 2]);
//! assert_eq!(plan.groups, [vec![0, 2], vec![1]]);
//!
//! let refused = midvokt::plan(&Head { max_k: 62, ..head }, &records).unwrap_err();
//! assert_eq!(refused.reason, Reason::MaxK);
//! # }
//! ```
//!
//! # Coordinates, positions, components
//!
//! A coordinate is one qubit of the register, by a number that it keeps for good. `initial_k`
//! coordinates are active at the start, numbered from 0; each promotion makes the next number.
//! A position counts the active coordinates in their order, from 0: a promotion appends its
//! coordinate behind the last position; a measurement takes the coordinate at its pivot away,
//! and those behind it move down by one position. Masks and pivots of records speak of
//! positions: bit p of a mask is the coordinate that is at position p before the record.
//!
//! A component is a set of coordinates that the simulator keeps in one small register: its
//! member j is bit j of that register and of the masks in a row. Coordinate c begins alone in
//! component c. A record joins the components that it touches: members of the others, by ascending
//! number and each in its own order, are appended to those of the largest (on a tie, the one of the
//! smallest number), which keeps its number; the others' numbers are not used again. Where a
//! measurement takes a member away, those behind it move down. A record that touches none concerns
//! the component of position 0; a rotation where no coordinate is active is a global phase.
//!
//! # The ceiling
//!
//! A controller holds registers of fewer coordinates than its ceiling, which is 1 to 62 and stands in
//! the head ([`Head::ceiling`]). A `max_k` of the ceiling or more is refused ([`Reason::MaxK`]), and
//! so is a join that makes a component of as many members or more ([`Reason::ComponentSize`]). What
//! is planned is the plan of the largest ceiling, word for word. A record's width may be up to 62
//! whatever the ceiling is. [`LARGEST_CEILING`] is that of the published Rust, of [`Head::new`]
//! and of `Head::default()`.
//!
//! ```
//! # #[cfg(feature = "std")] {
//! use midvokt::{plan, Head, Reason, Record};
//!
//! let large = Head { max_k: 8, ..Head::new(20) };
//! let small = Head { ceiling: 9, ..large };
//! let join = |members: u32| [Record::rotation(20, (1 << members) - 1, 0, 0, 0.25)];
//! assert_eq!(plan(&small, &join(8)), plan(&large, &join(8)));
//! assert_eq!(plan(&small, &join(9)).unwrap_err().reason, Reason::ComponentSize);
//! assert!(plan(&large, &join(9)).is_ok());
//! # }
//! ```
//!
//! # Paulis and angles
//!
//! A record's Pauli is P = i^phase X^x Z^z, X in front of Z at each position: a bit in `x` alone
//! is X, in `z` alone Z. A bit in both is XZ = -iY, so each Y needs 1 more in the phase:
//!
//! | P | x | z | phase |
//! |---|---|---|---|
//! | X0 | 1 | 0 | 0 |
//! | -Z0 Z1 | 0 | 3 | 2 |
//! | Y0 | 1 | 1 | 1 |
//! | Y0 Y1 | 3 | 3 | 2 |
//! | X0 Y2 | 5 | 4 | 1 |
//! | -Y1 | 2 | 2 | 3 |
//!
//! Y0 with phase 0 would be -iY0, which is not Hermitian; it is planned as it stands, and no
//! refusal tells. P is Hermitian where the phase and the number of bits in both masks are both
//! even or both odd.
//!
//! [`ActivePauli::from_text`] reads a Pauli as a circuit file has it, `-Y0*Z2` or `-Y_Z`, and
//! counts the Ys; `ActivePauli::try_from` makes one of a `PauliString`. Rotations and measurements
//! are made of it.
//!
//! A rotation is exp(-i angle P): a gate that turns by theta, exp(-i theta/2 P), has the angle
//! theta/2. The sine and cosine of a record are sin(angle) and cos(angle) of that same angle. Where
//! their squares do not sum to 1, give or take 2^-50, the record is refused ([`Reason::Squares`]).
//!
//! ```
//! # #[cfg(feature = "std")] {
//! use midvokt::{plan, Complex, Head, Record};
//!
//! let head = Head::new(1);
//! let theta = 0.5;
//! // Y0, turned by theta: x = 1, z = 1, phase = 1.
//! let plan = plan(&head, &[Record::rotation(1, 1, 1, 1, theta / 2.0)]).unwrap();
//! let kernel = &plan.rotations[0].kernel;
//! assert_eq!(kernel.action.even_phase, Complex::new(0.0, 1.0));
//!
//! // Applied to the state 0: the amplitudes are the cosine and the sine of theta / 2.
//! let state = [Complex::new(1.0, 0.0), Complex::new(0.0, 0.0)];
//! let turned = [0, 1].map(|target| {
//!     let source = target ^ kernel.action.xmask as usize;
//!     state[target] * kernel.cos_kernel_angle + kernel.coefficient(source, false) * state[source]
//! });
//! let half: f64 = theta / 2.0;
//! assert_eq!(turned.map(|amplitude| amplitude.re), [half.cos(), half.sin()]);
//! # }
//! ```
//!
//! # Works as whole numbers
//!
//! `whole_works` of a plan and of a [`Summary`] has both works as whole numbers, and how many times
//! cheaper the split is: the dense work divided by the component work, with its exact remainder. It
//! says so where it has none ([`WholeWorks`]): more than 38 coordinates are active at the start or
//! after a record, or the component work is 0. The float works are exactly these numbers wherever
//! they are given.
//!
//! ```
//! # #[cfg(feature = "std")] {
//! use midvokt::{plan, Head, Record, WholeWorks};
//!
//! let head = Head::new(11);
//! let records = [0b11, 0b1100].map(|x| Record::rotation(11, x, 0, 0, 0.25));
//! let plan = plan(&head, &records).unwrap();
//! match plan.whole_works {
//!     WholeWorks::TooWide => println!("too wide for whole numbers"),
//!     WholeWorks::WithoutQuotient { dense } => println!("{dense}, and components cost nothing"),
//!     WholeWorks::WithQuotient { dense, component, quotient, remainder } => {
//!         assert_eq!((dense, component, quotient, remainder), (4096, 88, 46, 48));
//!         assert_eq!(dense, quotient * component + remainder);
//!         assert_eq!(plan.estimated_dense_work, dense as f64);
//!     }
//! }
//! # }
//! ```
//!
//! # Stored plans
//!
//! A stored plan is a run of bytes, which the caller keeps: the scalar fields, the steps, the rows
//! and their sources. Its groups and its whole works are not stored, nor is the ceiling that it was
//! planned with; `component_max_k` says how many members its components have at most. One plan has
//! one file, and what was stored is loaded again word for word; `include/midvokt.h` says which word
//! of a file is which.
//!
//! Loading looks at a file's length, at its trailer and at `component_count`, and refuses it
//! ([`Reason::File`], [`Reason::Sections`], [`Reason::Lengths`]) where these are wrong. All else comes
//! back as it stands in the file. So `load` gives a `StoredPlan` where the words make one, and the
//! words themselves, with the first that does not fit, where they do not. Rows of a plan that comes
//! from elsewhere may still contradict each other: a program that applies them has to check what it
//! uses as a place or as a size.
//!
//! ```
//! # #[cfg(feature = "std")] {
//! use midvokt::{load, plan, store, Head, Reason, Record, Stored, StoredPlan};
//!
//! let head = Head::new(3);
//! let records = [Record::rotation(3, 0b101, 0, 0, 0.25), Record::measurement(3, 0, 0b110, 2, 2)];
//! let file = store(&head, &records).unwrap();
//! let kept = StoredPlan::from(plan(&head, &records).unwrap());
//! assert_eq!(load(&file), Ok(Stored::Plan(kept)));
//!
//! let refused = load(&file[8..]).unwrap_err();
//! assert_eq!(refused.reason, Reason::File);
//! # }
//! ```
//!
//! # Pending operations
//!
//! A simulator queues rotations, measurements and classical records before it plans them.
//! `optimize` makes such a list shorter: a rotation goes behind what it commutes with, up to one
//! about the same string, and the two become one, or none; then measurements move in front of
//! rotations that they commute with. Preserved prefixes are counts of operations across which
//! nothing goes, and `prefix_remap` says where each is in the list that is left. The library is
//! proved to give what its definition gives, word for word; `include/midvokt.h` says in full what
//! is done. [`optimize_into`] does the same over words, and allocates nothing.
//!
//! ```
//! # #[cfg(feature = "alloc")] {
//! use midvokt::{
//!     optimize, PauliString, PendingOperation, PendingPauliMeasurement, PendingPauliRotation,
//!     Reason, SymbolicBool, SymbolicPauliString,
//! };
//!
//! let signed = |x, z, phase| {
//!     let pauli = PauliString::from_masks(2, x, z, phase);
//!     SymbolicPauliString::with_sign(pauli, SymbolicBool::from(false))
//! };
//! let turn = |kernel_angle, pauli| {
//!     PendingOperation::from(PendingPauliRotation { kernel_angle, pauli })
//! };
//! let measure = |pauli| {
//!     let record = Some(1);
//!     PendingOperation::from(PendingPauliMeasurement { pauli, record, ..Default::default() })
//! };
//! // X0 by 0.5, Z1 by 0.25, -X0 by 0.125, and a measurement of Z1.
//! let list = [
//!     turn(0.5, signed(1, 0, 0)),
//!     turn(0.25, signed(0, 2, 0)),
//!     turn(0.125, signed(1, 0, 2)),
//!     measure(signed(0, 2, 0)),
//! ];
//! let optimized = optimize(2, &list, &[]).unwrap();
//! // -X0 by 0.125 - 0.5 is left of the two, its minus as a sign, and the measurement is in front.
//! let minus = SymbolicPauliString { sign: SymbolicBool::from(true), ..signed(1, 0, 0) };
//! let left = [list[3].clone(), list[1].clone(), turn(-0.375, minus)];
//! assert_eq!(optimized.operations, left);
//! assert_eq!(optimized.stats.fused_rotations, 1);
//! assert_eq!(optimized.stats.measurement_left_swaps, 2);
//! assert_eq!(optimized.stats.prefix_remap, [0, -1, -1, -1, 3]);
//!
//! // With the first two preserved, the first rotation stays where it is.
//! let kept = optimize(2, &list, &[2]).unwrap();
//! assert_eq!(kept.operations, list);
//! assert_eq!(optimize(2, &list, &[5]).unwrap_err().reason, Reason::Prefix);
//! # }
//! ```
//!
//! # What is the Rust simulator's
//!
//! The plan, its rows and their kernels have the names, fields, methods and defaults that the
//! Rust simulator ticit gives them, and `groups` and `whole_works` are added. What makes a kernel
//! from a Pauli string is left out: kernels come from the proved library. Pending operations and
//! what optimizing them came to have ticit's names and fields.
//!
//! # Features
//!
//! The crate is `no_std`. Without features it has [`plan_into`], [`plan_words`], [`store_into`],
//! [`store_words`], [`load_into`], [`load_words`], [`optimize_into`], [`optimize_words`], the
//! rows, [`Record::encode`] and [`ActivePauli::from_text`], allocates nothing and depends on
//! nothing.
//!
//! * `alloc`: owned plans, which are `plan`, `plan_encoded` and `ActiveComponentPlan`, stored ones,
//!   which are `store`, `store_encoded`, `load`, `Stored`, `StoredPlan` and `StoredWords`, pending
//!   operations, which are `optimize`, `optimize_encoded`, `PendingOperation` and what it is made
//!   of, an [`ActivePauli`] of a `PauliString`, and `encode`, which gives the words of all
//!   records.
//! * `std`, on unless turned off: `alloc`, and `Record::rotation` and `ActivePauli::rotation`,
//!   which compute sine and cosine. Without it the caller gives them in [`Rotation`], or to
//!   [`ActivePauli::rotation_with`].
//! * `num-complex`: [`Complex`] is the `Complex64` of the crate num-complex 0.4, the only
//!   dependency there is.
//!
//! A library without std depends on this crate with `default-features = false` and needs nothing
//! more. A program without std brings a panic handler, `panic = "abort"` in its profiles, a C
//! library to link and, with today's stable toolchain on x86-64 Linux, `rust_eh_personality`;
//! `tests/bare/plan.rs` is one.
//!
//! Without `alloc`:
//!
//! ```
//! use midvokt::{
//!     plan_into, ActivePauli, Buffers, Head, Lengths, Sections, RECORD_WORDS,
//! };
//!
//! const LENGTHS: Lengths = Lengths::for_records(2);
//! let turned = ActivePauli::from_text(3, "X_X").unwrap();
//! let measured = ActivePauli::from_text(3, "Z1*Z2").unwrap();
//! let records = [turned.rotation_with(0.0, 0.0, 1.0), measured.measurement(2)];
//! let mut words = [0; 2 * RECORD_WORDS];
//! for (eight, record) in words.chunks_exact_mut(RECORD_WORDS).zip(&records) {
//!     eight.copy_from_slice(&record.encode());
//! }
//! let mut buffers = Buffers {
//!     sections: Sections {
//!         steps: &mut [0; LENGTHS.steps],
//!         merges: &mut [0; LENGTHS.merges],
//!         sizes: &mut [0; LENGTHS.sizes],
//!         rotations: &mut [0; LENGTHS.rotations],
//!         promotions: &mut [0; LENGTHS.promotions],
//!         measurements: &mut [0; LENGTHS.measurements],
//!     },
//!     groups: &mut [0; LENGTHS.groups],
//! };
//! let head = Head::new(3);
//! let summary = plan_into(&head, &words, &mut buffers).unwrap();
//! assert_eq!(summary.component_peak_live_dimension, 8);
//! assert_eq!(buffers.measurement(0).unwrap().kernel.pivot, 1);
//! assert!(buffers.groups().eq([[0, 1]]));
//! ```

#![no_std]
#![deny(unsafe_op_in_unsafe_fn)]
#![warn(missing_docs)]

#[cfg(feature = "alloc")]
extern crate alloc;
#[cfg(any(feature = "std", test))]
extern crate std;

mod call;
#[cfg(not(feature = "num-complex"))]
mod complex;
mod kernels;
mod lent;
mod optimize;
mod pauli;
#[cfg(feature = "alloc")]
mod pending;
#[cfg(feature = "alloc")]
mod plan;
mod record;
mod refusal;
mod rows;
mod stored;
#[cfg(feature = "alloc")]
mod stored_plan;
mod words;
mod works;

pub use call::{plan_into, plan_words, Head, Summary, LARGEST_CEILING, RESULT_WORDS};
#[cfg(not(feature = "num-complex"))]
pub use complex::Complex;
pub use kernels::{
    insert_zero_bit, ActivePauliAction, PrecomputedActivePauliMeasurementKernel,
    PrecomputedActivePauliRotationKernel,
};
pub use lent::{Buffers, Groups, Lengths, Sections};
#[cfg(feature = "num-complex")]
pub use num_complex::Complex64 as Complex;
pub use optimize::{
    optimize_into, optimize_words, OptimizationCounts, MOST_OPERATIONS, MOST_PREFIXES, MOST_QUBITS,
    NO_BOUNDARY, OPERATION_WORDS, OPTIMIZE_RESULT_WORDS, SIGN_CONDITIONS,
};
pub use pauli::{ActivePauli, PauliError, PauliFault};
#[cfg(feature = "alloc")]
pub use pending::{
    encode_operations, optimize, optimize_encoded, Optimized, PauliString, PendingClassicalRecord,
    PendingOperation, PendingOptimizationStats, PendingPauliMeasurement, PendingPauliRotation,
    SymbolicBool, SymbolicPauliString,
};
#[cfg(feature = "alloc")]
pub use plan::{plan, plan_encoded, ActiveComponentPlan};
#[cfg(feature = "alloc")]
pub use record::encode;
pub use record::{ActiveMeasurement, Record, Rotation, MOST_RECORDS, RECORD_WORDS};
pub use refusal::{Reason, Refusal};
pub use rows::{
    ActiveComponentMeasurementStep, ActiveComponentPromotionStep, ActiveComponentRotationStep,
    ActiveComponentStepKind, ActiveComponentStepRef, MEASUREMENT_WORDS, ROTATION_WORDS, STEP_WORDS,
};
pub use stored::{
    file_bytes, load_into, load_words, store_into, store_words, Counts, Loaded, Scalars,
    FILE_VERSION, LOAD_RESULT_WORDS, SCALAR_WORDS, STORE_RESULT_WORDS, TRAILER_WORDS,
};
#[cfg(feature = "alloc")]
pub use stored_plan::{
    load, store, store_encoded, Fault, Misfit, Place, Stored, StoredPlan, StoredWords,
};
pub use works::WholeWorks;

/// The version of the project.
pub const VERSION: &str = env!("CARGO_PKG_VERSION");

// Words become usize and back without loss; the library is built for such machines only.
const _: () = assert!(usize::BITS == u64::BITS);

/// Has the examples of the README tried too.
#[cfg(all(doctest, feature = "std"))]
#[doc = include_str!("../README.md")]
struct Readme;
