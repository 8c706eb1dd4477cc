A log can't be made on a device that fails each call.

  $ write script
  > data 16
  > log 32
  > log-layer 0 32 error
  > close
  $ dmlw record script log
  ! dmlw: 19 Device
  [3]
  $ show log
  no such file
