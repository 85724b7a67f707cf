# A line a group, a volume a line: each line runs on the machine that has the host volume "uecp-NAME", with its state and its spool.
# A line whose machine is lost is not started on another one: its state is not there.
variable "lines" {
  type = map(string)
  default = {
    tx1 = "--host 192.0.2.7 --port 4000 --json"
    tx2 = "--host 192.0.2.8 --port 4000 --json"
  }
}

job "uecp-send" {
  type = "service"

  dynamic "group" {
    for_each = var.lines
    labels   = [group.key]

    content {
      count = 1

      volume "line" {
        type   = "host"
        source = "uecp-${group.key}"
      }

      restart {
        interval = "1m"
        attempts = 30
        delay    = "1s"
        mode     = "delay"
      }

      reschedule {
        attempts  = 0
        unlimited = false
      }

      disconnect {
        lost_after = "720h"
        replace    = false
      }

      task "send" {
        driver = "exec"
        user   = "nobody"

        volume_mount {
          volume      = "line"
          destination = "/line"
        }

        config {
          command = "/bin/sh"
          args    = ["-ec", "touch /line/spool; exec /usr/local/bin/uecp-spool /line/spool /line/send.db ${group.value}"]
        }

        resources {
          cpu    = 50
          memory = 64
        }
      }
    }
  }
}
