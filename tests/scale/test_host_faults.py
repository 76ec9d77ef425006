"""Hosts that can't be reached, that go away at once or in the middle, or that have no program."""
from tests.scale.faults import AROUND, FAULTS, LIES, Faults, hit, in_parts, made_fake
from tests.scale.runs import two_hosts
from tests.support import needs

# On a host: the nearest sshd above is killed, so that the host seems to go away.
GOES = """process=$$; while look $process && [ "$comm" != sshd ] && [ $process -gt 1 ]; do process=$parent; done
[ "$comm" != sshd ] || kill -s KILL $process; sleep 1; exit 0"""
NAME = "grids on several machines"


@needs.programs("ssh", "sshd")
class HostFaults(Faults):
    def test_hosts_that_cannot_be_reached(self):
        ssh = self.enterContext(two_hosts())
        for hosts, sure in (("nowhere", True), ("one,nowhere", False), ("nowhere,:", False)):
            for text in ("grids.txt", "< grids.txt"):
                for told, jobs in (("", ""), (", two jobs each", "--jobs 2 ")):
                    command = f"dm_parts --block 400K {jobs}--ssh {hosts} --output answers.txt read {text}"
                    self.sound(f"hosts {hosts}, {text}{told}", hit(command, *self.of(NAME), sure=sure, ssh=ssh))

    def test_faults_of_a_job_on_a_host(self):
        faults = {fault: body for fault, body in FAULTS.items() if fault not in AROUND}
        faults.update({"sees its host go away": GOES,
                       "sees its host go away after half": f"head -c 200000 | REAL; {GOES}"})
        folder = self.folder()
        ssh = self.enterContext(two_hosts(made_fake(folder, "exec REAL")))
        command = in_parts(self.recipes[NAME].replace("one,two,:", "one,two"), "400K")
        for fault, body in faults.items():
            for number in (1, 3):
                made_fake(folder, body, number)
                wrong = hit(command, *self.of(NAME), ssh=ssh, lies=fault in LIES or "half" in fault)
                self.sound(f"job {number}: dm_tool {fault}", wrong)
