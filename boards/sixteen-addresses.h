/*
 * The sixteen addresses by which the search in the range table is measured, each with its class and its words by 01: two at
 * each end of the table, one in the middle of each of the seven rows between its first row and its last, the last short
 * address, and the first of sets 1-2, 1-3 and 1-4 and of the table's last row. boards/count.c includes this list, and
 * rust/bench reads the addresses in it.
 */
{ 1, MORTISEVANE_CLASS_SHORT, { 0, 1, 0x008001, 0 } },
{ 2, MORTISEVANE_CLASS_SHORT, { 0, 1, 0x008002, 0 } },
{ 1933312, MORTISEVANE_CLASS_SHORT, { 0, 1, 0x1E0000, 0 } },
{ 2017279, MORTISEVANE_CLASS_INFORMATION_SERVICE, { 0, 1, 0x1F47FF, 0 } },
{ 2027519, MORTISEVANE_CLASS_NETWORK, { 0, 1, 0x1F6FFF, 0 } },
{ 2029591, MORTISEVANE_CLASS_OPERATOR, { 0, 1, 0x1F7817, 0 } },
{ 2101249, MORTISEVANE_CLASS_SET_12, { 0, 2, 0x000001, 0x1FFFFE } },
{ 538972160, MORTISEVANE_CLASS_SET_12, { 0, 2, 0x008000, 0x1FBFFF } },
{ 1075843073, MORTISEVANE_CLASS_SET_13, { 0, 2, 0x000001, 0x1E0001 } },
{ 1612713984, MORTISEVANE_CLASS_SET_13, { 0, 2, 0x008000, 0x1E4000 } },
{ 2149584897, MORTISEVANE_CLASS_SET_14, { 0, 2, 0x000001, 0x1E8001 } },
{ 2686455808, MORTISEVANE_CLASS_SET_14, { 0, 2, 0x008000, 0x1EC000 } },
{ 3573326735, MORTISEVANE_CLASS_SET_23_COUNTRY, { 0, 2, 0x1F938F, 0x1E29BA } },
{ 4280000001, MORTISEVANE_CLASS_SET_23_INFORMATION_SERVICE, { 0, 2, 0x1F8E01, 0x1E7DF8 } },
{ 4290999999, MORTISEVANE_CLASS_SET_23_INFORMATION_SERVICE, { 0, 2, 0x1FE6BF, 0x1E7F47 } },
{ 4291000000, MORTISEVANE_CLASS_SET_23_INFORMATION_SERVICE, { 0, 2, 0x1FE6C0, 0x1E7F47 } },
