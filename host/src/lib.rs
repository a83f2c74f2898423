//! The Reckonhedge cutting bench for a Rust host.
//!
//! A [`Mesh`] of foam triangles or of webbing straps is cut along a blade, cracked across torn edges, split at a particle or freed of straddlers; each call
//! gives a [`Torn`], the new mesh with what happened, or a [`Refusal`] in words. The work is done by the bench's C functions (`host/bench.h`), whose
//! sources are proved; this crate packs and unpacks, and decides nothing.
//!
//! ```
//! use cutting_bench::{Edition, Event, Mesh};
//! let mut foam = Mesh::new();
//! for (x, y) in [(0.0, 0.0), (4.0, 0.0), (4.0, 4.0), (0.0, 4.0)] {
//!     foam.add_particle(x, y);
//! }
//! foam.add_triangle(0, 1, 2);
//! foam.add_triangle(0, 2, 3);
//! let torn = foam.cut([-1.0, -1.0, 5.0, 5.0], Edition::First, 0.1)?;
//! // Where the blade went comes first, then what it changed.
//! assert_eq!(torn.events[0], Event::Crossed { a: 0, b: 1, at: [0.0, 0.0], t: 0.0 });
//! assert_eq!(torn.events[4..], [Event::Split { copy: 4, source: 0 }, Event::Split { copy: 5, source: 2 }]);
//! assert_eq!(torn.mesh.pieces()?, 2);
//! # Ok::<(), cutting_bench::Refusal>(())
//! ```
//!
//! A call takes less than 512 KiB of stack: the threads of the standard library (2 MiB) have enough, a thread of its own size should have 1 MiB.
#![deny(unsafe_code, missing_docs)]

mod ask;
mod calls;
mod draw;
mod image;
mod mend;
mod mesh;
mod pieces;
mod reader;
mod refusal;
mod sheet;
mod tear;
mod text;

pub use ask::{Groups, Hit, blade_hit, layout_fits, root};
pub use draw::{draw_cut, draw_difference, draw_mesh, tell};
pub use mend::{Dropped, List, Mended, Why};
pub use mesh::{Edge, Mesh, Particle, Triangle};
pub use pieces::Piece;
pub use reader::SheetReader;
pub use refusal::Refusal;
pub use sheet::{Sheet, SheetEdge, SheetParticle};
pub use tear::{Edition, Event, Rooms, Torn};
pub use text::TextError;

/// The minimum piece that the bench offers for a crack.
pub const MINIMUM_PIECE: u32 = 3;
