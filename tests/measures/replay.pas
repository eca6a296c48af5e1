pas 1 pages 4 threads 1 heaps 2 age 2
# A block of two whole pages, and one of a single page that is given again where the first ended.
a 1 1 0 8192 16
a 1 2 0 2049 16
f 1 1
flush 1
a 1 3 0 4096 4096
# Heap 1 takes the last page without a deed; three pages in a row aren't free.
a 1 4 1 4000 16
a 1 5 1 12288 16
