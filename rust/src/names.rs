//! Names for the numbers of a message: codes of options, message types, op and flags. They are plain numbers, so that a
//! number without a name is as good as any other.

/// Constants of one byte, each with what stands behind its number, and the names by their numbers.
macro_rules! names {
    ($($name:ident = $number:literal: $says:ident,)*) => {
        $(
            #[doc = concat!(stringify!($number), ", ", stringify!($says), ".")]
            pub const $name: u8 = $number;
        )*

        /// The name of a number, if it has one.
        #[must_use]
        pub const fn name(number: u8) -> Option<&'static str> {
            match number {
                $($number => Some(stringify!($name)),)*
                _ => None,
            }
        }

        /// All of them: the number, its name, and what stands behind it.
        pub const ALL: &[(u8, &str, &str)] = &[$(($number, stringify!($name), stringify!($says)),)*];
    };
}

/// The codes of options, by dhcproto's names in capitals, each with its [`Kind`](crate::Kind).
///
/// Two names are not dhcproto's: 108 is IPv6-Only Preferred in RFC 8925, where dhcproto has 106, and a name that lacks a
/// letter there has it here (153).
///
/// ```
/// use sindovaleph::{Kind, codes, kind_of};
///
/// assert_eq!((codes::HOSTNAME, kind_of(codes::HOSTNAME)), (12, Kind::Text));
/// assert_eq!((codes::name(12), codes::name(200)), (Some("HOSTNAME"), None));
/// ```
pub mod codes {
    names! {
        PAD = 0: Raw,
        SUBNET_MASK = 1: Address,
        TIME_OFFSET = 2: I32,
        ROUTER = 3: Addresses,
        TIME_SERVER = 4: Addresses,
        NAME_SERVER = 5: Addresses,
        DOMAIN_NAME_SERVER = 6: Addresses,
        LOG_SERVER = 7: Addresses,
        QUOTE_SERVER = 8: Addresses,
        LPR_SERVER = 9: Addresses,
        IMPRESS_SERVER = 10: Addresses,
        RESOURCE_LOCATION_SERVER = 11: Addresses,
        HOSTNAME = 12: Text,
        BOOT_FILE_SIZE = 13: U16,
        MERIT_DUMP_FILE = 14: Text,
        DOMAIN_NAME = 15: Text,
        SWAP_SERVER = 16: Address,
        ROOT_PATH = 17: Text,
        EXTENSIONS_PATH = 18: Text,
        IP_FORWARDING = 19: YesNo,
        NON_LOCAL_SRC_ROUTING = 20: YesNo,
        POLICY_FILTER = 21: Pairs,
        MAX_DATAGRAM_SIZE = 22: U16,
        DEFAULT_IP_TTL = 23: Byte,
        PATH_MTU_AGING_TIMEOUT = 24: U32,
        PATH_MTU_PLATEAU_TABLE = 25: U16s,
        INTERFACE_MTU = 26: U16,
        ALL_SUBNETS_LOCAL = 27: YesNo,
        BROADCAST_ADDR = 28: Address,
        PERFORM_MASK_DISCOVERY = 29: YesNo,
        MASK_SUPPLIER = 30: YesNo,
        PERFORM_ROUTER_DISCOVERY = 31: YesNo,
        ROUTER_SOLICITATION_ADDR = 32: Address,
        STATIC_ROUTING_TABLE = 33: Pairs,
        TRAILER_ENCAPSULATED = 34: YesNo,
        ARP_CACHE_TIMEOUT = 35: U32,
        ETHERNET_ENCAPSULATION = 36: YesNo,
        DEFAULT_TCP_TTL = 37: Byte,
        TCP_KEEPALIVE_INTERVAL = 38: U32,
        TCP_KEEPALIVE_GARBAGE = 39: YesNo,
        NIS_DOMAIN = 40: Text,
        NIS_SERVERS = 41: Addresses,
        NTP_SERVERS = 42: Addresses,
        VENDOR_EXTENSIONS = 43: Raw,
        NET_BIOS_NAME_SERVERS = 44: Addresses,
        NET_BIOS_DATAGRAM_DISTRIBUTION_SERVER = 45: Addresses,
        NET_BIOS_NODE_TYPE = 46: NodeType,
        NET_BIOS_SCOPE = 47: Text,
        X_FONT_SERVER = 48: Addresses,
        X_DISPLAY_MANAGER = 49: Addresses,
        REQUESTED_IP_ADDRESS = 50: Address,
        ADDRESS_LEASE_TIME = 51: U32,
        OPTION_OVERLOAD = 52: Byte,
        MESSAGE_TYPE = 53: MessageType,
        SERVER_IDENTIFIER = 54: Address,
        PARAMETER_REQUEST_LIST = 55: Codes,
        MESSAGE = 56: Text,
        MAX_MESSAGE_SIZE = 57: U16,
        RENEWAL = 58: U32,
        REBINDING = 59: U32,
        CLASS_IDENTIFIER = 60: Raw,
        CLIENT_IDENTIFIER = 61: Raw,
        NWIP_DOMAIN_NAME = 62: Text,
        NWIP_INFORMATION = 63: Raw,
        NISP_SERVICE_DOMAIN = 64: Text,
        NISP_SERVERS = 65: Addresses,
        TFTP_SERVER_NAME = 66: Raw,
        BOOTFILE_NAME = 67: Raw,
        MOBILE_IP_HOME_AGENT = 68: Addresses,
        SMTP_SERVER = 69: Addresses,
        POP3_SERVER = 70: Addresses,
        NNTP_SERVER = 71: Addresses,
        WWW_SERVER = 72: Addresses,
        DEFAULT_FINGER_SERVER = 73: Addresses,
        IRC_SERVER = 74: Addresses,
        STREET_TALK_SERVER = 75: Addresses,
        STREET_TALK_DIRECTORY_ASSISTANCE = 76: Addresses,
        USER_CLASS = 77: Raw,
        RAPID_COMMIT = 80: Flag,
        CLIENT_FQDN = 81: Raw,
        RELAY_AGENT_INFORMATION = 82: Raw,
        BCMS_CONTROLLER_NAMES = 88: Raw,
        BCMS_CONTROLLER_ADDRS = 89: Addresses,
        CLIENT_LAST_TRANSACTION_TIME = 91: U32,
        ASSOCIATED_IP = 92: Addresses,
        CLIENT_SYSTEM_ARCHITECTURE = 93: U16,
        CLIENT_NETWORK_INTERFACE = 94: ThreeBytes,
        CLIENT_MACHINE_IDENTIFIER = 97: Raw,
        TIMEZONE_POSIX_STRING = 100: Text,
        TIMEZONE_DATABASE_STRING = 101: Text,
        IPV6_ONLY_PREFERRED = 108: Raw,
        CAPTIVE_PORTAL = 114: Text,
        DISABLE_SLAAC = 116: Raw,
        SUBNET_SELECTION = 118: Address,
        DOMAIN_SEARCH = 119: Raw,
        CLASSLESS_STATIC_ROUTE = 121: Raw,
        TFTP_SERVER_ADDRESS = 150: Address,
        BULK_LEASE_QUERY_STATUS_CODE = 151: Raw,
        BULK_LEASE_QUERY_BASE_TIME = 152: U32,
        BULK_LEASE_QUERY_START_TIME_OF_STATE = 153: U32,
        BULK_LEASE_QUERY_QUERY_START_TIME = 154: U32,
        BULK_LEASE_QUERY_QUERY_END_TIME = 155: U32,
        BULK_LEASE_QUERY_DHCP_STATE = 156: Raw,
        BULK_LEASE_QUERY_DATA_SOURCE = 157: Raw,
        END = 255: Raw,
    }
}

/// The message types of option 53, each with the RFC that has it.
pub mod message_types {
    names! {
        DISCOVER = 1: RFC2132,
        OFFER = 2: RFC2132,
        REQUEST = 3: RFC2132,
        DECLINE = 4: RFC2132,
        ACK = 5: RFC2132,
        NAK = 6: RFC2132,
        RELEASE = 7: RFC2132,
        INFORM = 8: RFC2132,
        FORCE_RENEW = 9: RFC3203,
        LEASE_QUERY = 10: RFC4388,
        LEASE_UNASSIGNED = 11: RFC4388,
        LEASE_UNKNOWN = 12: RFC4388,
        LEASE_ACTIVE = 13: RFC4388,
        BULK_LEASE_QUERY = 14: RFC6926,
        LEASE_QUERY_DONE = 15: RFC6926,
        ACTIVE_LEASE_QUERY = 16: RFC7724,
        LEASE_QUERY_STATUS = 17: RFC7724,
        TLS = 18: RFC7724,
    }
}

/// What op says, by RFC 2131.
pub mod ops {
    names! {
        BOOT_REQUEST = 1: RFC2131,
        BOOT_REPLY = 2: RFC2131,
    }
}

/// The flags of the header.
pub mod flags {
    /// The client asks for answers by broadcast (RFC 2131, figure 2).
    pub const BROADCAST: u16 = 0x8000;
}
