//! A process that has the library. It ends where its input ends.

use std::io::{self, Read, Write};
use std::process::{Child, Command, Stdio};

pub struct Process {
    child: Child,
}

impl Process {
    /// The emulator heeds variables of the environment, so it gets none.
    pub fn start() -> Self {
        let child = Command::new(env!("EMULATOR"))
            .arg(env!("BRIDGE"))
            .env_clear()
            .stdin(Stdio::piped())
            .stdout(Stdio::piped())
            .spawn()
            .unwrap_or_else(|fault| panic!("{} does not start: {fault}", env!("EMULATOR")));
        Process { child }
    }

    /// What the process makes of a request; it is as long.
    pub fn reply(&mut self, request: &[u8]) -> Vec<u8> {
        self.exchange(request).unwrap_or_else(|fault| match self.child.wait() {
            Ok(status) => panic!("the proved library's process died in a call: {status}"),
            Err(_) => panic!("no reply from the proved library's process: {fault}"),
        })
    }

    fn exchange(&mut self, request: &[u8]) -> io::Result<Vec<u8>> {
        let (input, output) = (self.child.stdin.as_mut(), self.child.stdout.as_mut());
        input.expect("a pipe").write_all(request)?;
        let mut reply = vec![0; request.len()];
        output.expect("a pipe").read_exact(&mut reply)?;
        Ok(reply)
    }
}

impl Drop for Process {
    fn drop(&mut self) {
        // Waiting closes the input first. How the process ends is of no use by now.
        let _ = self.child.wait();
    }
}
