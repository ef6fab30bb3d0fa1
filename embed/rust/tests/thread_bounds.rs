//! Which types may go to another thread, and which may be shared: checked at compile time.
use qtree::{Device, Drain, Gauge, Port};

const fn may_go<T: Send>() {}
const fn may_be_shared<T: Send + Sync>() {}

const _: () = {
    may_go::<Device>();
    may_go::<Drain>();
    may_go::<Port>();
    may_be_shared::<Gauge>();
};

/// Has one implementation for a type that is not `Sync`, and two for one that is, between which no
/// call can choose.
trait IsNotSync<Mark> {
    const SEEN: () = ();
}
struct Shared;
impl<T> IsNotSync<()> for T {}
impl<T: Sync> IsNotSync<Shared> for T {}

const _: () = <Device as IsNotSync<_>>::SEEN;
const _: () = <Drain as IsNotSync<_>>::SEEN;
const _: () = <Port as IsNotSync<_>>::SEEN;

#[test]
fn it_compiles() {}
