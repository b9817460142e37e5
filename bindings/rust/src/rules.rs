//! Programs that break a rule of the header, and so do not compile.
//!
//! Memory outlives its link:
//! ```compile_fail,E0597
//! use mquerier::{Config, Igmp, Link};
//! let config = Config::<Igmp>::new([10, 0, 0, 9]);
//! let link = {
//!     let mut memory = vec![0; config.size()];
//!     Link::init(&config, 0, &mut memory).unwrap()
//! };
//! link.is_querier();
//! ```
//! Nobody else reads the memory of a link, or of a workspace:
//! ```compile_fail,E0502
//! use mquerier::{Config, Igmp, Workspace};
//! let config = Config::<Igmp>::new([10, 0, 0, 9]);
//! let mut memory = vec![0; config.workspace_size()];
//! let workspace = Workspace::init(&config, &mut memory).unwrap();
//! println!("{}", memory[0]);
//! workspace.changed();
//! ```
//! No link is used beside a copy of it:
//! ```compile_fail,E0382
//! use mquerier::{Config, Igmp, Link};
//! let link = Link::new(&Config::<Igmp>::new([10, 0, 0, 9]), 0).unwrap();
//! let other = link;
//! link.is_querier();
//! ```
//! ```compile_fail,E0599
//! use mquerier::{Config, Igmp, Link};
//! let link = Link::new(&Config::<Igmp>::new([10, 0, 0, 9]), 0).unwrap();
//! link.clone();
//! ```
//! One thread at a time uses a link, or a workspace, and may hand it to another:
//! ```
//! fn handed<T: Send>() {}
//! handed::<(mquerier::Link<'static, mquerier::Igmp>, mquerier::Workspace<'static, mquerier::Igmp>)>();
//! handed::<(mquerier::Link<'static, mquerier::Mld>, mquerier::Workspace<'static, mquerier::Mld>)>();
//! ```
//! ```compile_fail,E0277
//! fn shared<T: Sync>() {}
//! shared::<mquerier::Link<'static, mquerier::Mld>>();
//! ```
//! ```compile_fail,E0277
//! fn shared<T: Sync>() {}
//! shared::<mquerier::Workspace<'static, mquerier::Igmp>>();
//! ```
//! The queries of a call are read before the next call writes others:
//! ```compile_fail,E0499
//! use mquerier::{Config, Igmp, Link, Workspace};
//! let config = Config::<Igmp>::new([10, 0, 0, 9]);
//! let (mut link, mut workspace) = (Link::new(&config, 0).unwrap(), Workspace::new(&config).unwrap());
//! let mut queries = [0; 2048];
//! let answer = link.tick(&mut workspace, 0, &mut queries).unwrap();
//! let other = link.tick(&mut workspace, 1, &mut queries).unwrap();
//! answer.queries().count() + other.queries().count();
//! ```
//! No answer is thrown away unseen, since its queries would be lost:
//! ```
//! #![deny(unused_must_use)]
//! use mquerier::{Config, Igmp, Link, Workspace};
//! let config = Config::<Igmp>::new([10, 0, 0, 9]);
//! let (mut link, mut workspace) = (Link::new(&config, 0).unwrap(), Workspace::new(&config).unwrap());
//! let _ = link.tick(&mut workspace, 0, &mut []).unwrap();
//! ```
//! ```compile_fail
//! #![deny(unused_must_use)]
//! use mquerier::{Config, Igmp, Link, Workspace};
//! let config = Config::<Igmp>::new([10, 0, 0, 9]);
//! let (mut link, mut workspace) = (Link::new(&config, 0).unwrap(), Workspace::new(&config).unwrap());
//! link.tick(&mut workspace, 0, &mut []).unwrap();
//! ```
//! A family's link works in a workspace of that family:
//! ```compile_fail,E0308
//! use mquerier::{Config, Igmp, Link, Mld, Workspace};
//! let mut link = Link::new(&Config::<Igmp>::new([10, 0, 0, 9]), 0).unwrap();
//! let mut workspace = Workspace::new(&Config::<Mld>::new([0; 16])).unwrap();
//! link.tick(&mut workspace, 0, &mut []).unwrap();
//! ```
