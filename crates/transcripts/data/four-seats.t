Four seats write a hundred sectors each and mark their numbers.

  $ write script
  > data 400
  > log 807
  > seats 4
  $ more script 10
  > s0 w % 1 11
  > s0 w 1% 1 11
  > s0 w 2% 1 11
  > s0 w 3% 1 11
  > s0 w 4% 1 11
  > s0 w 5% 1 11
  > s0 w 6% 1 11
  > s0 w 7% 1 11
  > s0 w 8% 1 11
  > s0 w 9% 1 11
  $ more script 1
  > s0 mark seat 0
  $ more script 10
  > s1 w 10% 1 22
  > s1 w 11% 1 22
  > s1 w 12% 1 22
  > s1 w 13% 1 22
  > s1 w 14% 1 22
  > s1 w 15% 1 22
  > s1 w 16% 1 22
  > s1 w 17% 1 22
  > s1 w 18% 1 22
  > s1 w 19% 1 22
  $ more script 1
  > s1 mark seat 1
  $ more script 10
  > s2 w 20% 1 33
  > s2 w 21% 1 33
  > s2 w 22% 1 33
  > s2 w 23% 1 33
  > s2 w 24% 1 33
  > s2 w 25% 1 33
  > s2 w 26% 1 33
  > s2 w 27% 1 33
  > s2 w 28% 1 33
  > s2 w 29% 1 33
  $ more script 1
  > s2 mark seat 2
  $ more script 10
  > s3 w 30% 1 44
  > s3 w 31% 1 44
  > s3 w 32% 1 44
  > s3 w 33% 1 44
  > s3 w 34% 1 44
  > s3 w 35% 1 44
  > s3 w 36% 1 44
  > s3 w 37% 1 44
  > s3 w 38% 1 44
  > s3 w 39% 1 44
  $ more script 1
  > s3 mark seat 3
  $ dmlw run script log
  seat 0: 100 done 1 logged 0 failed 0 not logged 0 refused
  seat 1: 100 done 1 logged 0 failed 0 not logged 0 refused
  seat 2: 100 done 1 logged 0 failed 0 not logged 0 refused
  seat 3: 100 done 1 logged 0 failed 0 not logged 0 refused
  405 805
  $ dmlw status log
  405 805

The same over a log that is one sector too small for the end mark.

  $ write script
  > data 400
  > log 806
  > seats 4
  $ more script 10
  > s0 w % 1 11
  > s0 w 1% 1 11
  > s0 w 2% 1 11
  > s0 w 3% 1 11
  > s0 w 4% 1 11
  > s0 w 5% 1 11
  > s0 w 6% 1 11
  > s0 w 7% 1 11
  > s0 w 8% 1 11
  > s0 w 9% 1 11
  $ more script 1
  > s0 mark seat 0
  $ more script 10
  > s1 w 10% 1 22
  > s1 w 11% 1 22
  > s1 w 12% 1 22
  > s1 w 13% 1 22
  > s1 w 14% 1 22
  > s1 w 15% 1 22
  > s1 w 16% 1 22
  > s1 w 17% 1 22
  > s1 w 18% 1 22
  > s1 w 19% 1 22
  $ more script 1
  > s1 mark seat 1
  $ more script 10
  > s2 w 20% 1 33
  > s2 w 21% 1 33
  > s2 w 22% 1 33
  > s2 w 23% 1 33
  > s2 w 24% 1 33
  > s2 w 25% 1 33
  > s2 w 26% 1 33
  > s2 w 27% 1 33
  > s2 w 28% 1 33
  > s2 w 29% 1 33
  $ more script 1
  > s2 mark seat 2
  $ more script 10
  > s3 w 30% 1 44
  > s3 w 31% 1 44
  > s3 w 32% 1 44
  > s3 w 33% 1 44
  > s3 w 34% 1 44
  > s3 w 35% 1 44
  > s3 w 36% 1 44
  > s3 w 37% 1 44
  > s3 w 38% 1 44
  > s3 w 39% 1 44
  $ more script 1
  > s3 mark seat 3
  $ dmlw run script log
  seat 0: 100 done 1 logged 0 failed 0 not logged 0 refused
  seat 1: 100 done 1 logged 0 failed 0 not logged 0 refused
  seat 2: 100 done 1 logged 0 failed 0 not logged 0 refused
  seat 3: 100 done 1 logged 0 failed 0 not logged 0 refused
  404 804 logging_disabled
  [3]
  $ dmlw status log
  4 4
