#!/usr/bin/env perl
# examples/api/made.pl PROGRAM FOLDER: a client that Perl's OpenAPI::Client makes of docs/api.yaml. It configures, starts, pauses and saves a machine,
# and goes on with it in another process. The folder has the files kernel, initrd and disk. It prints what differs, and how many calls were as wanted.
use strict;
use warnings;
use Cwd 'abs_path';
use File::Basename 'dirname';
use Mojo::JSON qw(true false);
use Mojo::Util 'url_escape';
use OpenAPI::Client;

my ($program, $folder) = @ARGV;
my $description = abs_path(dirname(__FILE__) . '/../../docs/api.yaml');
my ($client, $served, $runs, $failed) = (undef, undef, 0, 0);

# ends the process before, and starts one in the folder
sub serve {
    my ($id) = @_;
    finish();
    unlink "$folder/api.sock";
    $served = fork // die;
    if (!$served) {
        chdir $folder or die;
        open STDIN, '<', '/dev/null' or die;
        open STDOUT, '>', '/dev/null' or die;
        exec $program, 'serve', '--api-sock', 'api.sock', '--id', $id or die;
    }
    select undef, undef, undef, 0.05 until -S "$folder/api.sock";
    $client = OpenAPI::Client->new("file://$description", base_url => 'http+unix://' . url_escape("$folder/api.sock"));
    $client->ua->inactivity_timeout(300);
}

sub finish {
    return unless $served;
    kill 'TERM', $served;
    waitpid $served, 0;
    $served = undef;
}

# leaves no process behind, also where it dies
END { local $?; finish() }

# counts a call: its answer's status, and the member of the body that is named
sub same {
    my ($wanted, $call, $arguments, $member) = @_;
    my $answer = $client->$call($arguments // {})->res;
    my $got = $answer->code // 'no answer';
    $got .= ' ' . (($answer->json // {})->{$member} // 'nothing') if $member;
    $runs++;
    return if $got eq $wanted;
    $failed++;
    print "differs: $call\n  wanted: $wanted\n  got:    $got\n";
}

my $limits = {ops => {size => 10, refill_time => 100}, bandwidth => {size => 1000, refill_time => 100, one_time_burst => 5000}};
my $drive = {drive_id => 'root', path_on_host => 'disk'};
my $files = {snapshot_path => 'state', mem_file_path => 'memory'};

serve('first');
same('200 Not started', describeInstance => {}, 'state');
same('200 1.0-rv64', getFirecrackerVersion => {}, 'firecracker_version');
same('204', putMachineConfiguration => {body => {vcpu_count => 2, mem_size_mib => 4}});
same('204', patchMachineConfiguration => {body => {track_dirty_pages => true}});
same('200 4', getMachineConfiguration => {}, 'mem_size_mib');
same('204', putGuestBootSource => {body => {kernel_image_path => 'kernel', initrd_path => 'initrd', boot_args => 'quiet'}});
same('204', putGuestDriveByID => {drive_id => 'root', body => {%$drive, is_root_device => true, rate_limiter => $limits}});
same('204', putGuestNetworkInterfaceByID => {iface_id => 'eth0', body => {iface_id => 'eth0', host_dev_name => 'link', tx_rate_limiter => $limits}});
same('204', putGuestVsock => {body => {guest_cid => 3, uds_path => 'vsock.sock'}});
same('204', putBalloon => {body => {amount_mib => 1, deflate_on_oom => false, stats_polling_interval_s => 60}});
same('200 1', describeBalloonConfig => {}, 'amount_mib');
same('204', putEntropyDevice => {body => {rate_limiter => $limits}});
same('204', putMmdsConfig => {body => {network_interfaces => ['eth0'], version => 'V2'}});
same('204', putMmds => {body => {latest => {name => 'vm'}}});
same('204', patchMmds => {body => {region => 'north'}});
same('200 north', getMmds => {}, 'region');
same('204', createSyncAction => {body => {action_type => 'InstanceStart'}});
same('400 12: the microVM is not paused', createSnapshot => {body => $files}, 'fault_message');
same('204', patchGuestDriveByID => {drive_id => 'root', body => $drive});
same('204', patchGuestNetworkInterfaceByID => {iface_id => 'eth0', body => {iface_id => 'eth0', rx_rate_limiter => $limits}});
same('204', patchBalloon => {body => {amount_mib => 2}});
same('204', patchBalloonStatsInterval => {body => {stats_polling_interval_s => 30}});
same('200 512', describeBalloonStats => {}, 'target_pages');
same('204', patchVm => {body => {state => 'Paused'}});
same('204', createSnapshot => {body => $files});
same('204', patchVm => {body => {state => 'Resumed'}});
serve('second');
my $backend = {backend_path => 'memory', backend_type => 'File'};
same('204', loadSnapshot => {body => {snapshot_path => 'state', mem_backend => $backend, resume_vm => true}});
same('200 Running', describeInstance => {}, 'state');
same('200', getExportVmConfig => {});
same('400 10: allowed only before boot', loadSnapshot => {body => $files}, 'fault_message');
printf "%d of %d as a client wanted that was made of docs/api.yaml\n", $runs - $failed, $runs;
exit($failed != 0);
