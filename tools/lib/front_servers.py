"""front_servers.py: HAProxy and nginx by the files of packaging/, at ports of a trial."""

import os
import re
import shutil
import socket
import subprocess
import sys
import time

from lib import repository


def put(folder, name, text):
    place = os.path.join(folder, name)
    with open(place, "w", encoding="utf-8") as file:
        file.write(text)
    return place


def found(program):
    """Where a program of Debian is, also for a user whose PATH is without the folders of root's; None where it isn't installed."""
    return shutil.which(program, path=os.environ.get("PATH", "") + ":/usr/sbin:/sbin")


def waits_for(port):
    for _ in range(100):
        try:
            return socket.create_connection(("127.0.0.1", port), 5).close()
        except OSError:
            time.sleep(0.05)
    sys.exit("nothing listens at %d" % port)


def haproxy(folder, port, behind, status, log="/dev/log"):
    """HAProxy at this port, before a server with a status page; it looks at that page each tenth of a second, and sends its log there."""
    text = repository.text_of("packaging", "haproxy.cfg")
    for own, other in (("192.0.2.10:2641", "127.0.0.1:%d" % port), ("handled 127.0.0.1:2641", "handled 127.0.0.1:%d" % behind),
                       ("port 12641 inter 2s", "port %d inter 100ms" % status), ("/dev/log", log)):
        text = text.replace(own, other)
    # it stays the user who tries it
    text = re.sub(r"(?m)^    (user|group) .*\n", "", text)
    return subprocess.Popen([found("haproxy"), "-db", "-f", put(folder, "haproxy.cfg", text)], stdout=subprocess.DEVNULL, stderr=subprocess.DEVNULL)


def nginx_file(folder, plain, tls, behind):
    """A configuration of nginx that takes packaging/nginx.conf in, at these two ports, before this one; with a certificate, and all that is written in the folder."""
    subprocess.run(["openssl", "req", "-x509", "-newkey", "ec", "-pkeyopt", "ec_paramgen_curve:prime256v1", "-nodes", "-days", "1", "-subj", "/CN=handles.example.org",
                    "-keyout", folder + "/key", "-out", folder + "/pem"], check=True, capture_output=True)
    text = repository.text_of("packaging", "nginx.conf")
    for own, other in ((r"192\.0\.2\.10:80\b", "127.0.0.1:%d" % plain), (r"192\.0\.2\.10:443\b", "127.0.0.1:%d" % tls), (r"127\.0\.0\.1:8080", "127.0.0.1:%d" % behind),
                       (r"/etc/ssl/\S+\.key;", folder + "/key;"), (r"/etc/ssl/\S+\.pem;", folder + "/pem;"), (r"/var/log/nginx", folder)):
        text = re.sub(own, other, text)
    site = put(folder, "site.conf", text)
    kept = "".join("%s_temp_path %s/%s; " % (one, folder, one) for one in ("client_body", "proxy", "fastcgi", "uwsgi", "scgi"))
    # it stays the user who tries it
    user = "" if os.geteuid() else "user root root; "
    return put(folder, "nginx.conf", "%sdaemon off; pid %s/pid; error_log %s/log; events {} http { access_log off; %s include %s; }\n" % (user, folder, folder, kept, site))


def nginx_words(folder, file):
    return [found("nginx"), "-p", folder, "-e", folder + "/log", "-c", file]


def nginx(folder, plain, tls, behind):
    return subprocess.Popen(nginx_words(folder, nginx_file(folder, plain, tls, behind)), stdout=subprocess.DEVNULL, stderr=subprocess.DEVNULL)
