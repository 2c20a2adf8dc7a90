"""The fence agent fence_nvme_pr: nodes of a cluster are fenced off NVMe disks by reservations."""
