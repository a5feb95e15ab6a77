//! The calls that set and ask: age, counter, ports, VLANs, addresses, queues, BPDU handling.

use super::counters;
use super::frame::{is_group, Header};
use super::operation::Operation;
use super::refusals::*;
use super::settings::{Port, Vlan, FORWARDING, VLANS};
use super::switch::Switch;

/// The answer of a call that has nothing to tell.
const DONE: Answer = Ok((0, 0));

impl Switch {
    pub fn age(&mut self) -> Answer {
        Ok((self.addresses.age(), 0))
    }

    pub fn counter(&self, port: u32, number: u32) -> Answer {
        refuse_lowest(&[(PORT, !is_port(port)), (RANGE, number > counters::LAST)])?;
        Ok((self.counters.value(port, number), 0))
    }

    pub fn set_port(
        &mut self,
        port: u32,
        state: u32,
        assignment: u32,
        default: Header,
        flags: u32,
        operation: Operation,
    ) -> Answer {
        refuse_lowest(&[
            (PORT, !is_port(port)),
            (RANGE, state > FORWARDING),
            (RANGE, assignment > 2),
            (RANGE, !is_default_header(&default)),
            (RANGE, flags > 7),
            (RANGE, !is_operation(&operation)),
        ])?;
        self.settings.ports[port as usize] = Port { state, assignment, default, flags, operation };
        DONE
    }

    /// "One entry a VID; setting a VID that is there replaces its entry."
    pub fn set_vlan(&mut self, vid: u32, members: u32, gid: u32, operation: Operation) -> Answer {
        let vlan = Vlan { vid, members, gid, operation };
        let vlans = &mut self.settings.vlans;
        let there = vlans.iter().position(|entry| entry.vid == vid);
        refuse_lowest(&[
            (RANGE, !is_vid(vid)),
            (RANGE, !is_mask(members)),
            (RANGE, !is_gid(gid)),
            (RANGE, !is_operation(&operation)),
            (VLANS_IN_USE, there.is_none() && vlans.len() == VLANS),
        ])?;
        match there {
            Some(place) => vlans[place] = vlan,
            None => vlans.push(vlan),
        }
        DONE
    }

    pub fn clear_vlan(&mut self, vid: u32) -> Answer {
        refuse_lowest(&[(RANGE, !is_vid(vid)), (VLAN_NOT_THERE, self.settings.vlan(vid).is_none())])?;
        self.settings.vlans.retain(|entry| entry.vid != vid);
        DONE
    }

    pub fn set_static(&mut self, gid: u32, port: u32, address: u64) -> Answer {
        let addresses = &mut self.addresses;
        let has_place = addresses.is_known(gid, address) || addresses.has_empty_place(gid, address);
        refuse_lowest(&[
            (PORT, !is_port(port)),
            (RANGE, !is_gid(gid)),
            (RANGE, !is_address(address)),
            (GROUP_ADDRESS, is_group(address)),
            (PLACES_IN_USE, !has_place),
        ])?;
        addresses.set_static(gid, address, port);
        DONE
    }

    pub fn remove(&mut self, gid: u32, address: u64) -> Answer {
        refuse_lowest(&[
            (RANGE, !is_gid(gid)),
            (RANGE, !is_address(address)),
            (ADDRESS_NOT_THERE, !self.addresses.is_known(gid, address)),
        ])?;
        self.addresses.remove(gid, address);
        DONE
    }

    pub fn set_map(&mut self, pcp: u32, queue: u32) -> Answer {
        refuse_lowest(&[(RANGE, !is_pcp(pcp)), (RANGE, !is_queue(queue))])?;
        self.settings.queue_map[pcp as usize] = queue;
        DONE
    }

    pub fn set_queue_switch(&mut self, port: u32, queue: u32, on: u32) -> Answer {
        refuse_lowest(&[(PORT, !is_port(port)), (RANGE, !is_queue(queue)), (RANGE, !is_switch(on))])?;
        self.settings.queue_on[port as usize][queue as usize] = on == 1;
        DONE
    }

    pub fn set_bpdu_handling(&mut self, on: u32) -> Answer {
        refuse_lowest(&[(RANGE, !is_switch(on))])?;
        self.settings.bpdu_handling = on == 1;
        DONE
    }
}
