//! Orders are counted by how their cap was found, as `compare` needs it.

use reference::brake::Brake;
use reference::call::Settings;
use reference::levels::{levels, run};
use reference::motion::Order;
use reference::orders::Orders;

const SETTINGS: Settings = Settings {
    line_end: 1,
    safety: 0,
    ceiling: 40_000_000,
    traction: 100,
};

fn brake(feet: u64) -> Brake {
    Brake::of_consist(feet, 3).expect("the consist is in range")
}

fn counted(order: Order, speed: u64) -> Orders {
    counted_with(brake(1), order, speed)
}

fn counted_with(brake: Brake, order: Order, speed: u64) -> Orders {
    let mut orders = Orders::default();
    orders.count(order, speed, brake, SETTINGS);
    orders
}

#[test]
fn each_order_has_its_count() {
    let greatest = counted(Order::Drive(100), 0).greatest;
    let near_the_ceiling = counted(Order::Drive(30), 39_999_970).greatest;
    let between = counted(Order::Drive(99), 0).between;
    let zero = counted(Order::Drive(0), 0);
    let rolling = counted(Order::Drive(0), 1);
    assert_eq!((greatest, near_the_ceiling, between), (1, 1, 1));
    assert_eq!((zero.zero, zero.rolling), (1, 0));
    assert_eq!((rolling.zero, rolling.rolling), (1, 1));
    assert_eq!(counted(Order::Brake, 5).brake, 1);
}

/// A train with a long list reads few levels of it at low speed only.
#[test]
fn few_levels_are_told_from_many() {
    for (speed, few) in [(1_249_900, 1), (1_249_901, 0)] {
        let orders = counted_with(brake(10_000), Order::Drive(7), speed);
        assert_eq!((orders.few, orders.many), (few, 1 - few), "{speed}");
    }
    for (feet, few) in [(720, 1), (721, 0)] {
        assert_eq!(levels(brake(feet)).len() <= 240, few == 1);
        let orders = counted_with(brake(feet), Order::Drive(7), 30_000_000);
        assert_eq!((orders.few, orders.many), (few, 1 - few), "{feet}");
    }
}

/// The list of levels is then read to its last entry.
#[test]
fn run_to_the_full_brake_is_told() {
    let list = levels(brake(1));
    let lost: u64 = list[..list.len() - 1].iter().sum();
    for (speed, cycles, full) in [(lost, list.len() - 1, 0), (lost + 1, list.len(), 1)] {
        assert_eq!(run(speed, &list).0, cycles);
        assert_eq!(counted(Order::Drive(7), speed - 7).full, full, "{speed}");
    }
}

#[test]
fn rare_orders_are_told_by_name() {
    let mut orders = Orders::default();
    assert_eq!(orders.rare(1).len(), 8);
    orders.add(counted(Order::Drive(7), 0));
    let rare = orders.rare(1);
    assert_eq!(rare.len(), 6, "{rare:?}");
    assert!(rare.contains(&"none: 0".to_string()), "{rare:?}");
}
