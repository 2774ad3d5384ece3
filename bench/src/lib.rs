//! What the two programs of this folder share: drafts of books, random books, and random scripts of calls.

pub mod author;
pub mod caller;
pub mod counts;
pub mod draft;
pub mod edges;
pub mod long;
pub mod random;
pub mod shapes;
