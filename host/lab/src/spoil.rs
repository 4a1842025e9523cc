//! The words that write past the layer.
use crate::{
    command::Command,
    words::{class_words, page_name},
    world::World,
};
use bokuhira::{State, PAGE};

/// Carries one of them out, and says what was done.
pub fn spoil(world: &mut World, command: &Command) -> Result<String, String> {
    let len = world.store.array.len();
    match command {
        Command::State(state) => {
            world.store.state = state.encode();
            (world.lost, world.spoilt) = (State::decode(&world.store.state).is_none(), true);
            Ok("the state is set by hand".into())
        }
        Command::Map(lpn, page) => {
            let logical = world.store.map.len();
            *world.store.map.get_mut(*lpn).ok_or(format!("there is no map entry {lpn}: entries are 0 to {}", logical.saturating_sub(1)))? = *page;
            world.spoilt = true;
            Ok("the map entry is set by hand".into())
        }
        Command::Byte(at, byte) if *at < len => {
            world.spoil(*at, &[*byte]);
            Ok(format!("{} is changed by hand", page_name(world.geometry, at / PAGE)))
        }
        Command::Byte(at, _) => Err(format!("there is no byte {at}: bytes are 0 to {}", len - 1)),
        Command::Page { at, bytes } if (at + 1) * PAGE <= len => {
            world.spoil(at * PAGE, bytes);
            Ok(format!("{} is made by hand: {}", page_name(world.geometry, *at), class_words(world.pages.list[*at].class)))
        }
        Command::Page { at, .. } => Err(format!("there is no page {at}: pages are 0 to {}", len / PAGE - 1)),
        _ => unreachable!("no word that spoils"),
    }
}
