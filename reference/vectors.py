#!/usr/bin/env python3
"""The records of crates/vectors (argument "stdin") and what the program prints for them, from document 01, the specification, and
the requests of 02 alone (codes.py and fixed_codes.py)."""
import sys

from cases_decode import by_chance, decode_refusals, lent_lists, mixed_decode, published_codes, small_codes, worked
from cases_fixed import golay, golay_patterns, hsiao, hsiao_changes, width_changes, width_words, widths
from cases_interleaving import depths, interleaved_bursts, interleaved_by_chance, interleaving_causes, mixed_interleaving, worked_bits
from cases_leaders import leader_refusals, leaders_by_chance, words_tried, zero_places
from cases_linear import batches, hamming, large, matrices, mixed_batches, ranges, word_cases
from cases_longest import longest_interleaved, longest_matrices, longest_words
from cases_weights import duals, no_row, one_code, published_weights
from records import LINES, RECORDS, written

for group in (word_cases, hamming, large, ranges, matrices, batches, mixed_batches, published_weights, no_row, one_code, duals, worked,
              lent_lists, decode_refusals, mixed_decode, small_codes, published_codes, by_chance, words_tried, zero_places, leader_refusals,
              leaders_by_chance, worked_bits, interleaving_causes, mixed_interleaving, depths, interleaved_bursts, interleaved_by_chance,
              longest_matrices, longest_words, longest_interleaved, golay, golay_patterns, hsiao, hsiao_changes, widths, width_words,
              width_changes):
    group()
written('\n' + '-' * 14 + '\n', 0)

if sys.argv[1:] == ['stdin']:
    sys.stdout.buffer.write(b''.join(RECORDS))
else:
    sys.stdout.write(''.join(LINES))
