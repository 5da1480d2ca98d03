"""The illustrations of document 004, and the one of 000. Their figures are lost; these are the numbers that their lists and 004's one table have,
in their places.

004's lists go from bits 63 down to bit 0: those of the packs name the bits, PCMPEQB's table has 63 at the left, and PUNPCKHWD's words call the
first two products of PMULHW's list the high half. Where only single lanes are printed, with no place, they stand lowest with zeros above."""
import pagefile
import rules
from opcodes import SECOND_BYTE, registers
from pagefile import Page

# Name, destination, source, and the manual's own result; lanes as they are printed, underscores between them.
WHOLE = '''
PACKSSDW   FFFF8002_000001FC        80000002_00008000        8000_7FFF_8002_01FC
PACKSSWB   FF02_0085_007E_81CF      007E_7F00_EF9D_FF88      7E_7F_80_88_80_7F_7E_80
PACKUSWB   0002_023A_007E_FFF8      0112_008B_0100_FF88      FF_8B_FF_00_02_FF_7E_00
PADDSB     00_D2_53_42_77_70_07_9A  01_88_EC_00_14_44_F7_A8  01_80_3F_42_7F_7F_FE_80
PADDSW     D250_5321_7007_FFFF      8807_EC22_0FF9_FFFF      8000_3F43_7FFF_FFFE
PADDUSB    7F_D2_53_42_77_70_07_9A  81_88_EC_0E_14_44_F7_A8  FF_FF_FF_50_8B_B4_FE_FF
PADDUSW    7E10_8000_FFFE_1234      7000_8000_0015_4567      EE10_FFFF_FFFF_579B
PADDW      8000_FF00_00FC_FFFF      0123_01EC_8014_FFFF      8123_00EC_8110_FFFE
PCMPEQB    DD_15_42_FF_80_EE_A1_14  DB_15_43_FF_80_CE_A1_04  00_FF_00_FF_FF_00_FF_00
PCMPGTB    DD_24_42_01_80_80_A3_14  DC_25_41_FF_80_7F_A6_04  FF_00_FF_FF_00_00_00_FF
PCMPGTD    0000BA15_00000001        0000BA14_FFFFFFFF        FFFFFFFF_FFFFFFFF
PCMPGTW    DA14_8000_0001_1243      0001_8000_FFFF_1234      0000_0000_FFFF_FFFF
PMADDWD    FFFE_7FFF_7007_FFFF      0002_7FFF_0FF9_FFFF      3FFEFFFD_06FD5FD0
PMULHW     D250_5321_7007_FFFF      8807_EC22_0FF9_FFFF      1569_F98C_06FD_0000
PMULLW     D250_5321_7007_FFFF      8807_EC22_0FF9_FFFF      4030_7662_5FCF_0001
PSLLD      000FA3BE_01234567        0000000000000008         0FA3BE00_23456700
PSLLQ      000FA3BE01234567         0000000000000008         0FA3BE0123456700
PSLLW      8807_EC22_0FF9_FFFF      0000000000000008         0700_2200_F900_FF00
PSRAD      FFF00000_01230000        0000000000000010         FFFFFFF0_00000123
PSRAW      8800_EC00_0F00_7F00      0000000000000008         FF88_FFEC_000F_007F
PSRLD      FFF00000_01234567        0000000000000010         0000FFF0_00000123
PSRLQ      000FA3BE01234567         0000000000000010         0000000FA3BE0123
PSRLW      8800_EC22_0FF9_FF00      0000000000000008         0088_00EC_000F_00FF
PUNPCKHWD  4030_7662_5FCF_0001      1569_F98C_06FD_0000      15694030_F98C7662
PUNPCKLWD  4030_7662_5FCF_0001      1569_F98C_06FD_0000      06FD5FCF_00000001
'''
# What the table does not have digit for digit:
#   PMADDWD   the manual prints 3FFEFFD, one digit short; its two products, FFFFFFFC and 3FFF0001, have the sum 3FFEFFFD.
#   PACKUSWB  the source's bits 31-16 are not printed, but for being positive and above a byte: 0100 stands for them. The packs' results are
#             words ("the largest possible 8-bit negative number", "not saturated").
#   PMULHW, PMULLW  the manual prints the 32-bit products, whose halves these are; the two PUNPCK take these halves for their operands, as
#             their words say.

SINGLE = '''
PADDB      53_FC     EC_14     3F_10
PADDD      FFF05C43  000FA3BE  00000001
PSUBB      53_07_9A  EC_F7_A8  67_10_F2
PSUBD      01234567  80000000  81234567
PSUBSB     82_42     0F_C1     80_7F
PSUBSW     5321_8007 D320_0FF9 7FFF_8000
PSUBUSB    53_42_07  EC_C1_F7  00_00_00
PSUBUSW    5321      EC22      0000
PSUBW      5321      EC22      66FF
'''

# Words alone: a source of zeros widens the destination's lanes, which have no numbers there. These are not the manual's.
WORDS = '''
PUNPCKHBW  81_92_A3_B4_C5_D6_E7_F8  00_00_00_00_00_00_00_00  0081_0092_00A3_00B4
PUNPCKHDQ  8192A3B4_C5D6E7F8        00000000_00000000        000000008192A3B4
PUNPCKLBW  81_92_A3_B4_C5_D6_E7_F8  00_00_00_00_00_00_00_00  00C5_00D6_00E7_00F8
PUNPCKLDQ  8192A3B4_C5D6E7F8        00000000_00000000        00000000C5D6E7F8
'''

# 000's, from bits 63 down too. Which operand is the destination is not said; the mean is the same either way.
MEAN = 'PAVGB      FF_FF_01_0F_00_70_07_9A  FF_00_FF_10_01_44_F7_A8  FF_80_80_10_01_5A_7F_A1'


def rows():
    """Name, destination, source and result, each manual's in its order, which is that of the names."""
    for line in (*sorted((WHOLE + SINGLE + WORDS).split('\n')), MEAN):
        if line:
            name, *numbers = line.split()
            yield name, *(int(number, 16) for number in numbers)


def files():
    for name, destination, source, result in rows():
        page = Page(registers(SECOND_BYTE[name], 0, 1), mmx=(destination, source) + (0,) * 6)
        answer, _, _, emulator = rules.run(page)
        assert answer == 'done' and emulator.mmx()[0] == result, f'the manual and the emulator differ: {name}'
        yield f'illustrations/{name}', pagefile.write(page)
