// The group of one stream, and its BASE, of the tests in C++.
#pragma once
#include "vicemint.hpp"

namespace {

constexpr std::uint8_t BASE[] = { 0x40, 0x9c, 0, 1, 1, 6, 0, 0, 0, 0, 10, 2, 1, 8, 2, 2, 1, 3, 4, 100, 0, 4, 3, 2, 4, 0, 1, 0 };

air_big_info_t group()
{
    air_big_info_t it{};
    it.iso_interval = 8;
    it.num_bis = it.bn = it.irc = it.nse = 1;
    it.sdu_interval = 10000;
    it.max_sdu = it.max_pdu = 100;
    it.phy = 1;
    return it;
}

}
