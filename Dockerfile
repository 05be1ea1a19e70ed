# The service in a container, from the Debian package:
#   scripts/package DIR && docker build -t dss -f Dockerfile DIR
#   docker run --init --network host -v /srv/dss-tokens:/etc/dss:ro -v dss:/var/lib/dss --restart always dss
# It listens on 127.0.0.1: share the network of the host or of the proxy, or append arguments for `serve` with --listen.
FROM debian:bookworm-slim
COPY dss_*_amd64.deb /tmp/dss.deb
RUN dpkg -i /tmp/dss.deb && rm /tmp/dss.deb
USER dss
VOLUME /var/lib/dss
# Only its user can read what it makes, and it writes no core dumps.
ENTRYPOINT ["/bin/sh", "-c", "umask 077 && ulimit -c 0 && exec /usr/bin/dss \"$@\"", "dss"]
CMD ["serve", "--tokens", "/etc/dss/tokens.toml", "--db", "/var/lib/dss/dss.db", "--port", "8080", "--admin-port", "8078", "--explain", "--verbose"]
