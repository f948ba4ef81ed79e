// examples/api/sdk.go PROGRAM FOLDER: a client of Go's net/http in the manner of Firecracker's Go SDK. It starts the program, waits for its
// socket, configures a machine by a call for each part, starts, pauses and saves it, ends the process, and goes on with the machine in another one.
// The folder has the files kernel, initrd and disk. It prints what differs, and how many calls were as wanted.
package main

import (
	"bytes"
	"context"
	"encoding/json"
	"fmt"
	"io"
	"net"
	"net/http"
	"net/url"
	"os"
	"os/exec"
	"syscall"
	"time"
)

type bootSource struct {
	BootArgs        string  `json:"boot_args,omitempty"`
	InitrdPath      string  `json:"initrd_path,omitempty"`
	KernelImagePath *string `json:"kernel_image_path"`
}

type machineConfiguration struct {
	CPUTemplate     *string `json:"cpu_template,omitempty"`
	MemSizeMib      *int64  `json:"mem_size_mib"`
	Smt             *bool   `json:"smt,omitempty"`
	TrackDirtyPages bool    `json:"track_dirty_pages,omitempty"`
	VcpuCount       *int64  `json:"vcpu_count"`
}

type tokenBucket struct {
	OneTimeBurst *int64 `json:"one_time_burst,omitempty"`
	RefillTime   *int64 `json:"refill_time"`
	Size         *int64 `json:"size"`
}

type rateLimiter struct {
	Bandwidth *tokenBucket `json:"bandwidth,omitempty"`
	Ops       *tokenBucket `json:"ops,omitempty"`
}

type drive struct {
	CacheType    *string      `json:"cache_type,omitempty"`
	DriveID      *string      `json:"drive_id"`
	IsReadOnly   *bool        `json:"is_read_only"`
	IsRootDevice *bool        `json:"is_root_device"`
	PathOnHost   *string      `json:"path_on_host"`
	RateLimiter  *rateLimiter `json:"rate_limiter,omitempty"`
}

type networkInterface struct {
	GuestMac      string       `json:"guest_mac,omitempty"`
	HostDevName   *string      `json:"host_dev_name"`
	IfaceID       *string      `json:"iface_id"`
	RxRateLimiter *rateLimiter `json:"rx_rate_limiter,omitempty"`
	TxRateLimiter *rateLimiter `json:"tx_rate_limiter,omitempty"`
}

type vsock struct {
	GuestCid *int64  `json:"guest_cid"`
	UdsPath  *string `json:"uds_path"`
	VsockID  *string `json:"vsock_id,omitempty"`
}

type balloon struct {
	AmountMib             *int64 `json:"amount_mib"`
	DeflateOnOom          *bool  `json:"deflate_on_oom"`
	StatsPollingIntervals int64  `json:"stats_polling_interval_s,omitempty"`
}

type entropyDevice struct {
	RateLimiter *rateLimiter `json:"rate_limiter,omitempty"`
}

type mmdsConfig struct {
	IPV4Address       *string  `json:"ipv4_address,omitempty"`
	NetworkInterfaces []string `json:"network_interfaces"`
	Version           *string  `json:"version,omitempty"`
}

type snapshotCreateParams struct {
	MemFilePath  *string `json:"mem_file_path"`
	SnapshotPath *string `json:"snapshot_path"`
	SnapshotType string  `json:"snapshot_type,omitempty"`
}

type memoryBackend struct {
	BackendPath *string `json:"backend_path"`
	BackendType *string `json:"backend_type"`
}

type snapshotLoadParams struct {
	EnableDiffSnapshots bool           `json:"enable_diff_snapshots,omitempty"`
	MemBackend          *memoryBackend `json:"mem_backend,omitempty"`
	MemFilePath         string         `json:"mem_file_path,omitempty"`
	ResumeVM            bool           `json:"resume_vm,omitempty"`
	SnapshotPath        *string        `json:"snapshot_path"`
}

type instanceInfo struct {
	AppName    string `json:"app_name"`
	ID         string `json:"id"`
	State      string `json:"state"`
	VmmVersion string `json:"vmm_version"`
}

type fault struct {
	FaultMessage string `json:"fault_message"`
}

func to[T any](value T) *T { return &value }

// machine is a process that serves one machine, and the client that talks to it.
type machine struct {
	command *exec.Cmd
	client  *http.Client
}

// launch starts the program and waits until it answers.
func launch(ctx context.Context, program, folder, id string) (*machine, error) {
	path := folder + "/api.sock"
	command := exec.CommandContext(ctx, program, "serve", "--api-sock", path, "--id", id)
	command.Dir = folder
	if err := command.Start(); err != nil {
		return nil, err
	}
	dial := func(ctx context.Context, _, _ string) (net.Conn, error) {
		return (&net.Dialer{}).DialContext(ctx, "unix", path)
	}
	it := &machine{command, &http.Client{Transport: &http.Transport{DialContext: dial}}}
	for ctx.Err() == nil {
		if it.call(ctx, "GET", "/machine-config", nil, &machineConfiguration{}) == nil {
			return it, nil
		}
		time.Sleep(50 * time.Millisecond)
	}
	return nil, ctx.Err()
}

// call sends a body as JSON and reads the answer into result. An answer that is no success is an error with its fault.
func (it *machine) call(ctx context.Context, method, path string, body, result any) error {
	var reader io.Reader
	if body != nil {
		text, err := json.Marshal(body)
		if err != nil {
			return err
		}
		reader = bytes.NewReader(text)
	}
	request, err := http.NewRequestWithContext(ctx, method, "http://localhost"+path, reader)
	if err != nil {
		return err
	}
	request.Header.Set("Accept", "application/json")
	request.Header.Set("Content-Type", "application/json")
	answer, err := it.client.Do(request)
	if err != nil {
		return err
	}
	defer answer.Body.Close()
	if answer.StatusCode >= 300 {
		var why fault
		if err := json.NewDecoder(answer.Body).Decode(&why); err != nil {
			return err
		}
		return fmt.Errorf("[%s %s][%d] %s", method, path, answer.StatusCode, why.FaultMessage)
	}
	if result == nil {
		_, err = io.Copy(io.Discard, answer.Body)
		return err
	}
	return json.NewDecoder(answer.Body).Decode(result)
}

func (it *machine) put(ctx context.Context, path string, body any) error {
	return it.call(ctx, "PUT", path, body, nil)
}

func (it *machine) setState(ctx context.Context, state string) error {
	return it.call(ctx, "PATCH", "/vm", map[string]string{"state": state}, nil)
}

func (it *machine) state(ctx context.Context) error {
	var info instanceInfo
	if err := it.call(ctx, "GET", "/", nil, &info); err != nil {
		return err
	}
	return fmt.Errorf("%s %s", info.ID, info.State)
}

// stop ends the process as the SDK does, by SIGTERM.
func (it *machine) stop() error {
	if err := it.command.Process.Signal(syscall.SIGTERM); err != nil {
		return err
	}
	it.command.Wait()
	return nil
}

var runs, failed int

// same counts an answer, of which wanted is the text of its error, if it is to be one.
func same(what, wanted string, err error) {
	got := ""
	if err != nil {
		got = err.Error()
	}
	runs++
	if got != wanted {
		failed++
		fmt.Printf("differs: %s\n  wanted: %s\n  got:    %s\n", what, wanted, got)
	}
}

func limits(size int64) *rateLimiter {
	return &rateLimiter{Ops: &tokenBucket{Size: to(size), RefillTime: to(int64(100))}}
}

// configure makes the calls of the SDK's handlers in their order.
func configure(ctx context.Context, it *machine) {
	source := bootSource{BootArgs: "quiet", InitrdPath: "initrd", KernelImagePath: to("kernel")}
	config := machineConfiguration{MemSizeMib: to(int64(16)), Smt: to(false), TrackDirtyPages: true, VcpuCount: to(int64(2))}
	root := drive{DriveID: to("root"), IsReadOnly: to(false), IsRootDevice: to(true), PathOnHost: to("disk"), RateLimiter: limits(10)}
	eth := networkInterface{GuestMac: "02:00:00:00:00:07", HostDevName: to("link"), IfaceID: to("eth0"), TxRateLimiter: limits(10)}
	same("the machine", "", it.put(ctx, "/machine-config", &config))
	same("the boot source", "", it.put(ctx, "/boot-source", &source))
	same("a drive", "", it.put(ctx, "/drives/"+url.PathEscape(*root.DriveID), &root))
	same("an interface", "", it.put(ctx, "/network-interfaces/"+url.PathEscape(*eth.IfaceID), &eth))
	same("a vsock device", "", it.put(ctx, "/vsock", &vsock{GuestCid: to(int64(3)), UdsPath: to("vsock.sock"), VsockID: to("vsock0")}))
	same("a balloon", "", it.put(ctx, "/balloon", &balloon{AmountMib: to(int64(1)), DeflateOnOom: to(true), StatsPollingIntervals: 60}))
	same("an entropy device", "", it.put(ctx, "/entropy", &entropyDevice{RateLimiter: limits(10)}))
	same("a place of metadata", "", it.put(ctx, "/mmds/config", &mmdsConfig{NetworkInterfaces: []string{"eth0"}, Version: to("V2")}))
	same("metadata", "", it.put(ctx, "/mmds", map[string]any{"latest": map[string]any{"meta-data": "here"}}))
}

func firstLife(ctx context.Context, it *machine) {
	same("a new machine", "first Not started", it.state(ctx))
	configure(ctx, it)
	same("the start", "", it.put(ctx, "/actions", map[string]string{"action_type": "InstanceStart"}))
	same("it runs", "first Running", it.state(ctx))
	same("an action that isn't there", "[PUT /actions][400] 7: a value is out of range",
		it.put(ctx, "/actions", map[string]string{"action_type": "SendCtrlAltDel"}))
	create := snapshotCreateParams{MemFilePath: to("memory"), SnapshotPath: to("state")}
	same("a create while it runs", "[PUT /snapshot/create][400] 12: the microVM is not paused", it.put(ctx, "/snapshot/create", &create))
	same("pause", "", it.setState(ctx, "Paused"))
	same("it is paused", "first Paused", it.state(ctx))
	same("a full snapshot", "", it.put(ctx, "/snapshot/create", &create))
	diff := snapshotCreateParams{MemFilePath: to("diff"), SnapshotPath: to("state2"), SnapshotType: "Diff"}
	same("a diff", "", it.put(ctx, "/snapshot/create", &diff))
	same("resume", "", it.setState(ctx, "Resumed"))
	same("the end", "", it.stop())
}

func secondLife(ctx context.Context, it *machine) {
	backend := memoryBackend{BackendPath: to("memory"), BackendType: to("File")}
	load := snapshotLoadParams{EnableDiffSnapshots: true, MemBackend: &backend, SnapshotPath: to("state")}
	same("a load", "", it.put(ctx, "/snapshot/load", &load))
	same("it is paused still", "second Paused", it.state(ctx))
	same("resume", "", it.setState(ctx, "Resumed"))
	same("it runs again", "second Running", it.state(ctx))
	config := machineConfiguration{VcpuCount: to(int64(0)), MemSizeMib: to(int64(0))}
	same("its machine", "", it.call(ctx, "GET", "/machine-config", nil, &config))
	same("what is told of it", "2 harts, 16 MiB, tracked: true",
		fmt.Errorf("%d harts, %d MiB, tracked: %t", *config.VcpuCount, *config.MemSizeMib, config.TrackDirtyPages))
	same("the end", "", it.stop())
}

func main() {
	ctx, cancel := context.WithTimeout(context.Background(), 5*time.Minute)
	defer cancel()
	for _, it := range []struct {
		id   string
		life func(context.Context, *machine)
	}{{"first", firstLife}, {"second", secondLife}} {
		served, err := launch(ctx, os.Args[1], os.Args[2], it.id)
		if err != nil {
			fmt.Println("the program doesn't answer:", err)
			os.Exit(1)
		}
		it.life(ctx, served)
	}
	fmt.Printf("%d of %d as Go's client wanted\n", runs-failed, runs)
	if failed != 0 {
		os.Exit(1)
	}
}
